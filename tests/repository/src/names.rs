//! The names in a document, and whether what they name is there.

use crate::read;
use crate::sources::{words, Sources};
use std::path::{Path, PathBuf};

/// What is no part of the repository: the asker's papers, the kit's command, and the linker.
const ELSEWHERE: [&str; 6] =
    ["../shared", "00-demands.md", "01-scope.md", "02-change-requests.md", "rt", "cc"];

/// What the names of things that are built, or that the kit gives, begin with.
const BUILT_OR_GIVEN: [&str; 3] = ["target/", "out/", "std::"];

/// What a reference in a contract has: what it refers to now, as the call begins, and as it returns.
const OF_REFERENCES: [&str; 3] = ["now", "old", "new"];

/// The lists of examples, by the letter of their entries.
const EXAMPLES: [(char, &str); 2] = [
    ('E', "crates/machine/specs/Examples.antt"),
    ('C', "crates/machine/specs/ChoiceExamples.antt"),
];

/// The names of a document that name nothing, each with the number of its line.
pub fn missing(document: &str, sources: &Sources) -> Vec<String> {
    let mut missing = Vec::new();
    for (number, line) in document.lines().enumerate() {
        if line.starts_with("    ") {
            continue; // a block of code
        }
        let parts: Vec<&str> = line.split('`').collect();
        for (place, text) in parts.iter().enumerate() {
            let wrong = if place % 2 == 0 {
                wrong_in_text(text, sources)
            } else {
                let mut wrong = wrong_in_code(text, sources);
                wrong.extend(wrong_in_file(&parts[place..], sources));
                wrong
            };
            missing.extend(wrong.into_iter().map(|name| format!("line {}: {name}", number + 1)));
        }
    }
    missing
}

/// Of code: paths of files, items and members wherever they stand, and a name that stands alone.
fn wrong_in_code(code: &str, sources: &Sources) -> Vec<String> {
    let names_something = |word: &str| {
        if ELSEWHERE.contains(&word) || BUILT_OR_GIVEN.iter().any(|start| word.starts_with(start)) {
            true
        } else if let Some(there) = is_there(word, sources) {
            there
        } else if let Some(path) = word.strip_prefix("Rattle.") {
            has_module(path, sources)
        } else if let Some((of, name)) = word.rsplit_once("::") {
            let of_type = of.rsplit("::").next().expect("a part");
            sources.has_item(word)
                || sources.code_modules.contains(word)
                || (of == of_type || sources.has_item(of)) && sources.has_member(of_type, name)
        } else if word.contains('/') {
            !word.contains(char::is_alphabetic) || has_file(word, sources)
        } else if let Some((of, name)) = word.split_once('.').filter(|(of, _)| is_name(of)) {
            let lower = of.starts_with(char::is_lowercase);
            let is_projection = word != code || OF_REFERENCES.contains(&name);
            sources.has_member(of, name) || has_file(word, sources) || lower && is_projection
        } else {
            word != code || !is_name(word) || sources.has_word(word)
        }
    };
    code.split(|c: char| c.is_whitespace() || "()[]{},;".contains(c))
        .filter(|word| !word.is_empty() && !names_something(word))
        .map(str::to_string)
        .collect()
}

/// A path as definitions are imported by, without its first word: `machine.specs.Events`, alone or with a name of the module.
fn has_module(path: &str, sources: &Sources) -> bool {
    let [name, folder, module, ref member @ ..] =
        path.split_terminator('.').collect::<Vec<_>>()[..]
    else {
        return false;
    };
    sources
        .files
        .contains(&Path::new("crates").join(name).join(folder).join(format!("{module}.antt")))
        && member.iter().all(|member| sources.has_member(module, member))
}

/// `name` in `file`: the file has the name in it.
fn wrong_in_file(parts: &[&str], sources: &Sources) -> Option<String> {
    let [path, " in ", file, ..] = *parts else {
        return None;
    };
    let name = path.rsplit(['.', ':']).next().expect("a part");
    let is_there = !is_name(name)
        || !sources.files.contains(Path::new(file))
        || words(&read(file)).any(|word| word == name);
    (!is_there).then(|| format!("{path} in {file}"))
}

/// More than one letter, digit, `_` or `-`, and a letter first.
fn is_name(word: &str) -> bool {
    word.chars().count() > 1
        && word.starts_with(char::is_alphabetic)
        && word.chars().all(|c| c.is_alphanumeric() || c == '_' || c == '-')
}

/// A file or folder, from the root or from a folder on. In capitals, a name of any folder; `*`, `**`: as usual.
fn has_file(path: &str, sources: &Sources) -> bool {
    let wanted: Vec<&str> = path.trim_start_matches("./").split_terminator('/').collect();
    sources.files.iter().any(|file| {
        let parts: Vec<&str> = file.iter().filter_map(|part| part.to_str()).collect();
        (0..parts.len()).any(|from| begins_with(&parts[from..], &wanted))
    })
}

fn begins_with(parts: &[&str], wanted: &[&str]) -> bool {
    match (parts.split_first(), wanted.split_first()) {
        (_, None) => true,
        (_, Some((&"**", rest))) => (0..=parts.len()).any(|n| begins_with(&parts[n..], rest)),
        (None, _) => false,
        (Some((part, parts)), Some((name, rest))) => {
            let fits = match name.strip_prefix('*') {
                Some(end) => part.ends_with(end),
                None => part == name || name.len() > 1 && name.chars().all(char::is_uppercase),
            };
            fits && begins_with(parts, rest)
        }
    }
}

/// Of plain text: edits, tests and examples.
fn wrong_in_text(text: &str, sources: &Sources) -> Vec<String> {
    text.split(|c: char| c.is_whitespace() || "()|,;:\"".contains(c))
        .map(|word| word.trim_end_matches('.'))
        .filter(|word| is_there(word, sources) == Some(false))
        .map(str::to_string)
        .collect()
}

/// Whether an edit is there, as `transitions/awake_at_end`; a test of the second engine, as `load.rs/ports`; an entry of
/// a list of examples, as `E4`. Of other words nothing is said.
fn is_there(word: &str, sources: &Sources) -> Option<bool> {
    for (letter, file) in EXAMPLES {
        if let Some(number) = word.strip_prefix(letter).and_then(|number| number.parse().ok()) {
            return Some((1..=entries(file)).contains(&number));
        }
    }
    let (first, rest) = word.split_once('/')?;
    if sources.crates.iter().any(|name| name == first) {
        return Some(sources.files.contains(&edit_file(word)));
    }
    let file = Path::new("tests/second_engine/tests").join(first);
    first
        .ends_with(".rs")
        .then(|| sources.files.contains(&file) && read(file).contains(&format!("fn {rest}(")))
}

/// The number of entries of the list `examples` in a file; each but the first begins a line with `∷`.
fn entries(file: &str) -> usize {
    let text = read(file);
    let list = text.lines().skip_while(|line| *line != "examples =").map(str::trim_start);
    1 + list.take_while(|line| *line != "∷ []").filter(|line| line.starts_with("∷ ")).count()
}

/// The file of an edit that is named as `transitions/awake_at_end`.
pub fn edit_file(edit: &str) -> PathBuf {
    let (name, edit) = edit.split_once('/').expect("a crate and an edit");
    Path::new("crates").join(name).join("must-fail").join(format!("{edit}.edit"))
}
