//! The documents name what is there, and the trace is what its legend says.

use repository::names::{edit_file, missing};
use repository::read;
use repository::sources::Sources;
use repository::trace::{missing_proofs, rows, uncited, Row};
use std::path::{Path, PathBuf};

/// The rows of the trace, whose columns have the names that the tests ask for.
fn trace() -> Vec<Row> {
    let rows = rows(&read("docs/TRACE.md"));
    for column in ["definition", "contract", "proof", "edit", "refused at", "promise"] {
        assert!(rows.iter().any(|row| row.cell(column).is_some()), "no column {column}");
    }
    rows
}

fn has_extension(file: &Path, extension: &str) -> bool {
    file.extension().is_some_and(|end| end == extension)
}

fn assert_none(wrong: Vec<String>) {
    assert!(wrong.is_empty(), "\n{}", wrong.join("\n"));
}

#[test]
fn every_name_names_something() {
    let sources = Sources::read();
    let mut wrong = Vec::new();
    // the list of changes and those of the move to another toolchain and of the design pass name what is gone
    let of_before = ["CHANGES.md", "PORT.md", "DESIGN-PASS.md"];
    let is_of_today = |file: &&PathBuf| {
        has_extension(file, "md") && !of_before.iter().any(|it| file.ends_with(it))
    };
    for document in sources.files.iter().filter(is_of_today) {
        let names = missing(&read(document), &sources);
        wrong.extend(names.into_iter().map(|name| format!("{}, {name}", document.display())));
    }
    assert_none(wrong);
}

#[test]
fn a_name_of_nothing_is_found() {
    let sources = Sources::read();
    for name in [
        "`starting::start::found_children`", // it is in another module
        "`events::acting::media_of_start`",     // used there and declared elsewhere
        "`events::settling_twice`",
        "`starting::found_children`",
        "`Call::NoSuchCase`",
        "`machine::Call::NoSuchCase`",
        "`player::Call::Tick`", // a type of another crate
        "`Call::LogFull`",      // a case of another type
        "`FirstSession.loaded-good`",
        "`FirstSession.loaded_good`",
        "`log.newer`", // a reference has no such field
        "`Rattle.machine.specs.NoSuchModule`",
        "`Rattle.events.specs.Events.{counted}`", // it is in another crate
        "`State.no_such_field`",
        "`crates/events/src/no_such_file.rt`",
        "`no_such_file.md`",
        "`no_such_function`",
        "`decide` in `crates/chain/src/lib.rt`", // it is in another crate
        "edit events/no_such_edit",
        "load.rs/no_such_test",
        "E16",
        "C13",
    ] {
        assert_eq!(missing(name, &sources).len(), 1, "{name}");
    }
}

#[test]
fn every_proof_of_the_trace_is_there() {
    let sources = Sources::read();
    let mut wrong = Vec::new();
    for row in trace() {
        let home = row.cell("edit").unwrap_or_default().split('/').next().expect("a part");
        for cell in ["proof", "refused at"].iter().filter_map(|column| row.cell(column)) {
            let proofs = missing_proofs(cell, home, &sources);
            wrong.extend(proofs.into_iter().map(|proof| format!("line {}: {proof}", row.line)));
        }
    }
    assert_none(wrong);
}

#[test]
fn a_proof_that_is_not_there_is_found() {
    let sources = Sources::read();
    for cell in [
        "",
        "player:",
        "player: load",
        "transitions: node",
        "events: None.antt",
        "engine: `call` by itself",
    ] {
        assert_eq!(missing_proofs(cell, "", &sources).len(), 1, "{cell}");
    }
}

#[test]
fn the_trace_lists_every_edit_once() {
    let listed: Vec<_> = trace()
        .iter()
        .filter(|row| row.cell("contract").is_none())
        .filter_map(|row| row.cell("edit").map(edit_file))
        .collect();
    let mut files = Sources::read().files;
    files.retain(|file| has_extension(file, "edit"));
    let unlisted: Vec<_> = files.iter().filter(|file| !listed.contains(file)).collect();
    assert!(unlisted.is_empty(), "{unlisted:?}");
    assert_eq!(listed.len(), files.len(), "an edit is listed twice, or is not there");
}

#[test]
fn contracts_cite_the_definitions_of_their_row() {
    let sources = Sources::read();
    assert_none(trace().iter().flat_map(|row| uncited(row, &sources)).collect());
}

#[test]
fn a_contract_that_cites_something_else_is_found() {
    let sources = Sources::read();
    for (definition, contract, wrong) in [
        ("`Events.counted`", "`changes::count_after`", 0),
        ("`Events.counted`", "`player::tick`", 0), // through what it is built from
        ("`Events.clocked`", "`changes::count_after`", 2),
        ("`Events.counted`, `clocked`", "`changes::count_after`", 1),
        ("`Events.counted`", "`changes::count_after`, `transition_of`", 1),
    ] {
        let table = format!("| definition | contract |\n|---|---|\n| {definition} | {contract} |");
        assert_eq!(uncited(&rows(&table)[0], &sources).len(), wrong, "{definition}, {contract}");
    }
}

// The five wrong players of 01, by their numbers, each with an edit that plants it.
#[test]
fn the_trace_has_the_players_that_are_shut_out() {
    let rows = trace();
    let edits: Vec<_> = rows.iter().filter_map(|row| row.cell("edit")).collect();
    for number in 1..=5 {
        let start = format!("c) {number}. ");
        let is_player = |row: &&Row| row.cell("promise").is_some_and(|p| p.starts_with(&start));
        let player = rows.iter().find(is_player).expect("a row of its own");
        let met = player.cell("where it is met").expect("a cell");
        assert!(edits.iter().any(|edit| met.contains(edit)), "line {}", player.line);
    }
}

/// The signatures of the `pub` functions, each in one line.
fn signatures(text: &str) -> Vec<String> {
    let functions = text.split("pub fn ").skip(1);
    let signature = |function: &str| {
        let end = function.find(" ->").expect("a result") + 3;
        let result = function[end..].split_whitespace().next().expect("a type");
        let parameters = function[..end].split_whitespace().collect::<Vec<_>>().join(" ");
        format!("{parameters} {result}")
    };
    functions.map(signature).collect()
}

#[test]
fn the_readme_has_the_functions_of_the_player() {
    assert_eq!(signatures(&read("README.md")), signatures(&read("crates/player/src/lib.rt")));
}
