//! The tables of the trace: what stands in their columns.

use crate::sources::Sources;
use std::collections::BTreeMap;
use std::path::{Path, PathBuf};

/// A row of a table: its cells by the names of their columns, and the number of its line.
pub struct Row {
    pub line: usize,
    cells: BTreeMap<String, String>,
}

impl Row {
    /// The cell of a column, if the table has such a column.
    pub fn cell(&self, column: &str) -> Option<&str> {
        self.cells.get(column).map(String::as_str)
    }

    /// The names of a cell, each with its module; one without is of the module of the name before it.
    pub fn names(&self, column: &str, separator: &str) -> Vec<String> {
        let mut module = String::new();
        let mut names = Vec::new();
        let cell = self.cell(column).unwrap_or_default();
        for name in cell.split('`').skip(1).step_by(2).filter(|name| !name.contains('/')) {
            if let Some((before, _)) = name.rsplit_once(separator) {
                module = before.to_string();
                names.push(name.to_string());
            } else if !module.is_empty() {
                names.push(format!("{module}{separator}{name}"));
            }
        }
        names
    }
}

fn cells(line: &str) -> Vec<String> {
    line.trim().trim_matches('|').split(" | ").map(|cell| cell.trim().to_string()).collect()
}

/// All rows of a document's tables.
pub fn rows(document: &str) -> Vec<Row> {
    let (mut rows, mut columns) = (Vec::new(), Vec::new());
    for (number, line) in document.lines().enumerate() {
        if !line.starts_with('|') {
            columns.clear();
        } else if columns.is_empty() {
            columns = cells(line);
        } else if !line.starts_with("|---") {
            let cells = columns.iter().cloned().zip(cells(line)).collect();
            rows.push(Row { line: number + 1, cells });
        }
    }
    rows
}

/// What is not there of a cell that names proofs: `crate: folder/function, Laws.antt; crate: ..`. A function between
/// backquotes and "by itself" has no file. `home` is the crate where none is named.
pub fn missing_proofs(cell: &str, home: &str, sources: &Sources) -> Vec<String> {
    let mut missing = Vec::new();
    if cell.starts_with("- ") || cell.starts_with("table ") {
        return missing;
    }
    let mut home = home;
    for group in cell.split(';').map(str::trim) {
        let mut items = group;
        if let Some((name, rest)) = group.split_once(':') {
            (home, items) = (name, rest);
        }
        for item in items.split(',').map(|item| item.split(" and ").next().expect("a part").trim())
        {
            let right = match item.split('`').collect::<Vec<_>>()[..] {
                [path] => has_proof(home, path, sources),
                ["", function, " by itself"] => is_proved_by_itself(home, function, sources),
                _ => true, // names are looked at everywhere
            };
            if !right {
                missing.push(format!("{home}: {item}"));
            }
        }
    }
    missing
}

/// What a function's proof is written in, in the folder of its name: the answers to its goals with what its loops keep and
/// what decreases, or the whole of it by hand.
const PROOF_FILES: [&str; 3] = ["Answers.antt", "Invariants.antt", "Proof.antt"];

/// A file of laws, or the proof of a function.
fn has_proof(name: &str, item: &str, sources: &Sources) -> bool {
    let folder = Path::new("crates").join(name);
    let has = |path: &Path| sources.files.contains(path);
    [folder.join(item), folder.join("proofs").join(item)].iter().any(|path| {
        if item.ends_with(".antt") {
            has(path)
        } else {
            PROOF_FILES.iter().any(|file| has(&path.join(file)))
        }
    })
}

fn is_proved_by_itself(name: &str, function: &str, sources: &Sources) -> bool {
    let folder = Path::new("crates").join(name).join("proofs");
    let proofs = PROOF_FILES.map(|file| Path::new(function).join(file));
    let is_proof =
        |file: &PathBuf| file.starts_with(&folder) && proofs.iter().any(|it| file.ends_with(it));
    sources.has_item_in(name, function) && !sources.files.iter().any(is_proof)
}

/// No contract speaks of these: names of numbers, examples, lists of calls, the program's files.
const NOT_PROMISED: [&str; 6] = [
    "Terms.",
    "Examples.",
    "Demand3.",
    "Operations.session_after",
    "PrintedRun.printed_run",
    "PrintedRun.printed_script",
];

/// The contracts of a row that cite none of its definitions, and the definitions that none of its contracts cites.
pub fn uncited(row: &Row, sources: &Sources) -> Vec<String> {
    let mut definitions = row.names("definition", ".");
    definitions.retain(|name| !NOT_PROMISED.iter().any(|start| name.starts_with(start)));
    let contracts = row.names("contract", "::");
    if definitions.is_empty() || contracts.is_empty() {
        return Vec::new();
    }
    let cites = |contract: &String, definition: &String| {
        let (_, name) = definition.rsplit_once('.').expect("a module and a name");
        sources.cited_by(contract).contains(name)
    };
    let idle =
        contracts.iter().filter(|contract| !definitions.iter().any(|name| cites(contract, name)));
    let open =
        definitions.iter().filter(|name| !contracts.iter().any(|contract| cites(contract, name)));
    idle.chain(open).map(|name| format!("line {}: {name}", row.line)).collect()
}
