//! The binary prints the run of the files in its folder.

mod common;

use std::path::PathBuf;
use std::process::{Command, Output};
use std::{env, fs};

use common::{document, script};

fn folder(name: &str) -> PathBuf {
    let folder = PathBuf::from(env!("CARGO_TARGET_TMPDIR")).join(name);
    fs::create_dir_all(&folder).unwrap();
    folder
}

fn run_binary(arguments: &[PathBuf]) -> Output {
    Command::new(env!("CARGO_BIN_EXE_second-engine-run")).args(arguments).output().unwrap()
}

#[test]
fn prints_the_run_and_nothing_else() {
    let folder = folder("printed-run");
    let text = "head 2; context 255; media 0 3; port 0 1; link key 1";
    fs::write(folder.join("doc"), document(text)).unwrap();
    fs::write(folder.join("script"), [script("start 0; key 1; start 9"), vec![9]].concat())
        .unwrap();
    let output = run_binary(&[folder]);
    assert!(output.status.success());
    assert_eq!(output.stdout, b"1 ok 2 0 1.1.1 1.0.1\n2 ok 2 1 4.1.1 5.0.0\n3 no 10\nscript\n");
    assert!(output.stderr.is_empty());
}

#[test]
fn fails_without_files_or_with_other_arguments() {
    for arguments in [vec![], vec![folder("no-files")], vec![folder("a"), folder("b")]] {
        let output = run_binary(&arguments);
        assert!(!output.status.success());
        assert!(output.stdout.is_empty());
    }
}
