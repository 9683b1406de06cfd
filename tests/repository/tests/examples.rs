//! Every folder of `examples` runs to its stored print, and its files are those that `examples/make` writes.

mod common;

use common::{alone, outcome, Folder};
use repository::root;
use std::fs;
use std::path::PathBuf;
use std::process::Command;

fn examples() -> Vec<PathBuf> {
    let entries = fs::read_dir(root().join("examples")).expect("the folder of examples");
    let folders: Vec<_> =
        entries.map(|entry| entry.expect("an entry").path()).filter(|path| path.is_dir()).collect();
    assert!(!folders.is_empty());
    folders
}

#[test]
fn every_example_prints_its_stored_run() {
    let _alone = alone();
    for folder in examples() {
        let run = outcome(Command::new(root().join("printed-run")).arg(&folder));
        let stored = fs::read_to_string(folder.join("printed")).expect("a stored print");
        assert_eq!((run.status, run.out), (0, stored), "{}: {}", folder.display(), run.err);
    }
}

/// `examples/make` in a folder of its own, with one example whose `doc` was written before.
fn made(hex: &str) -> (common::Outcome, Folder) {
    let folder = Folder::new();
    fs::copy(root().join("examples/make"), folder.path("make")).expect("make");
    folder.write("reel/doc", "before");
    folder.write("reel/doc.hex", hex);
    (outcome(&mut Command::new(folder.path("make"))), folder)
}

#[test]
fn the_files_of_each_example_are_made_from_its_hexadecimal_text() {
    let _alone = alone();
    for example in examples() {
        for file in ["doc", "script"] {
            let hex = fs::read_to_string(example.join(file).with_extension("hex")).expect("hex");
            let (run, folder) = made(&hex);
            assert_eq!((run.status, &*run.err), (0, ""));
            let (made, stored) = (fs::read(folder.path("reel/doc")), fs::read(example.join(file)));
            assert_eq!(made.unwrap(), stored.unwrap(), "{}/{file}", example.display());
        }
    }
}

#[test]
fn bytes_of_every_value_are_made() {
    let _alone = alone();
    let hex: String = (0..=255).map(|byte| format!("{byte:02X} {byte:02x}\t# {byte}\n")).collect();
    let (run, folder) = made(&hex);
    assert_eq!((run.status, &*run.err), (0, ""));
    let bytes: Vec<u8> = (0..=255).flat_map(|byte| [byte, byte]).collect();
    assert_eq!(fs::read(folder.path("reel/doc")).unwrap(), bytes);
}

#[test]
fn wrong_hexadecimal_is_refused_and_nothing_written() {
    let _alone = alone();
    for word in ["0", "000", "0G", "*", "\\x", "00,"] {
        let (run, folder) = made(&format!("# a comment\n00 {word} 01 # {word}"));
        let sentence = format!(
            "examples/make: reel/doc.hex, line 2: '{word}' is not a byte of two hexadecimal digits\n"
        );
        assert_eq!((run.status, run.out, run.err), (1, String::new(), sentence));
        assert_eq!(fs::read_to_string(folder.path("reel/doc")).unwrap(), "before");
    }
}
