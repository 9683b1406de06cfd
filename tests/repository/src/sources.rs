//! What the sources declare: items of code with the words of their contracts, definitions with the
//! words that they are made of, and every word that stands in them.

use crate::{files_below, read, root};
use std::collections::{BTreeMap, BTreeSet};
use std::path::{Path, PathBuf};

type Words = BTreeSet<String>;

#[derive(Default)]
pub struct Sources {
    /// The crates, as `crates.txt` lists them.
    pub crates: Vec<String>,
    /// All files, by their paths from the root.
    pub files: BTreeSet<PathBuf>,
    /// `crate::module` of each file of code.
    pub code_modules: Words,
    /// Functions, types and constants, as `crate::module::item`; a function with the words that it ensures.
    items: BTreeMap<String, Words>,
    /// What each module of definitions or proofs declares, and the fields or cases of each type of the code.
    members: BTreeMap<String, Words>,
    /// Of the definitions, not the proofs: each name with the words that it is made of.
    definitions: BTreeMap<String, Words>,
    /// Every word of the sources.
    words: Words,
}

/// A name of code is letters, digits and `_`.
fn code_words(text: &str) -> impl Iterator<Item = String> + '_ {
    text.split(|c: char| !c.is_alphanumeric() && c != '_')
        .filter(|word| !word.is_empty())
        .map(str::to_string)
}

/// A name of a definition may have hyphens and symbols in it.
fn definition_words(text: &str) -> impl Iterator<Item = String> + '_ {
    text.split(|c: char| c.is_whitespace() || "(){}[];:,.«»=`\"".contains(c))
        .filter(|word| !word.is_empty())
        .map(str::to_string)
}

/// The names of a text, of code or of definitions.
pub fn words(text: &str) -> impl Iterator<Item = String> + '_ {
    code_words(text).chain(definition_words(text))
}

/// The lines of a text without its comments.
fn uncommented<'a>(text: &'a str, comment: &'a str) -> impl Iterator<Item = &'a str> {
    text.lines().map(move |line| line.split(comment).next().expect("a first part"))
}

/// What is left of a line after the first of some words, and which one it was.
fn after<'a>(line: &'a str, words: &[&'static str]) -> Option<(&'static str, &'a str)> {
    words.iter().find_map(|word| Some((*word, line.strip_prefix(word)?)))
}

/// The name that a line of definitions declares, as `pub record NAME ..` or `NAME : ..`.
fn declared(line: &str) -> Option<&str> {
    let (mut rest, mut is_type) = (line.trim_start(), false);
    while let Some((word, left)) =
        after(rest, &["unfoldable ", "abbrev ", "pub ", "record ", "data "])
    {
        rest = left;
        is_type |= word == "record " || word == "data ";
    }
    let (name, left) = rest.split_once(' ')?;
    (is_type || left.starts_with(": ")).then_some(name)
}

/// `crate::module` of a file of code; the crate alone for its root.
fn code_module(path: &Path) -> String {
    let name = path.iter().nth(1).expect("crates/NAME/..").to_string_lossy();
    match &*path.file_stem().expect("a name").to_string_lossy() {
        "lib" | "main" => name.into_owned(),
        module => format!("{name}::{module}"),
    }
}

impl Sources {
    pub fn read() -> Self {
        let mut sources = Sources::default();
        for line in read("crates.txt").lines().filter(|line| !line.starts_with('#')) {
            // after the name of a static library stands what it is
            let name = line.split_once(':').and_then(|(name, _)| name.split_whitespace().next());
            sources.crates.extend(name.map(str::to_string));
        }
        for path in files_below(&root()) {
            let path = path.strip_prefix(root()).expect("below the root").to_path_buf();
            match path.extension().and_then(|extension| extension.to_str()) {
                Some("rt") => sources.enter_code(&path, &read(&path)),
                Some("antt") => sources.enter_definitions(&path, &read(&path)),
                // the tests of the documents have names of nothing in them
                Some("rs") if !path.starts_with("tests/repository") => {
                    sources.words.extend(uncommented(&read(&path), "//").flat_map(code_words));
                }
                _ => {}
            }
            sources.files.insert(path);
        }
        sources
    }

    fn enter_code(&mut self, path: &Path, text: &str) {
        let module = code_module(path);
        self.code_modules.insert(module.clone());
        let (mut item, mut type_open, mut ensures) = (String::new(), None, false);
        for line in uncommented(text, "//").map(str::trim) {
            self.words.extend(code_words(line));
            let plain = line.trim_start_matches("pub ").trim_start_matches("extern \"C\" ");
            if let Some((word, rest)) =
                after(plain, &["fn ", "struct ", "enum ", "const ", "type "])
            {
                let name = code_words(rest).next().expect("a name");
                item = format!("{module}::{name}");
                self.items.entry(item.clone()).or_default();
                type_open = (word == "struct " || word == "enum ").then_some(name);
            } else if line == "}" {
                type_open = None;
            } else if let Some(name) = &type_open {
                self.members.entry(name.clone()).or_default().extend(code_words(plain).next());
            }
            let mut clause = line;
            if let Some((word, rest)) = after(line, &["ensures ", "requires ", "{"]) {
                ensures = word == "ensures ";
                // a clause may have a name of its own, which cites nothing
                clause = rest.split_once('{').map_or(rest, |(_, clause)| clause);
            }
            if ensures {
                self.items.get_mut(&item).expect("a function").extend(definition_words(clause));
            }
        }
    }

    fn enter_definitions(&mut self, path: &Path, text: &str) {
        let is_proof = path.iter().any(|part| part == "proofs");
        let module = path.file_stem().expect("a name").to_string_lossy().into_owned();
        let members = self.members.entry(module).or_default();
        let mut current = None;
        for line in uncommented(text, "--") {
            self.words.extend(definition_words(line));
            if after(line, &["use ", "pub use ", "mod ", "pub mod "]).is_some() {
                continue;
            }
            if let Some(name) = declared(line) {
                members.insert(name.to_string());
                if !line.starts_with(' ') {
                    current = Some(name.to_string());
                }
            }
            if let (Some(name), false) = (&current, is_proof) {
                let made_of = self.definitions.entry(name.clone()).or_default();
                made_of.extend(definition_words(line));
            }
        }
    }

    /// A function, a type or a constant, by its path from its crate or by the end of that path.
    pub fn has_item(&self, path: &str) -> bool {
        let end = format!("::{path}");
        self.items.keys().any(|item| item == path || item.ends_with(&end))
    }

    /// An item of a crate, in whatever module.
    pub fn has_item_in(&self, name: &str, item: &str) -> bool {
        self.items.keys().any(|path| {
            path.split("::").next() == Some(name) && path.split("::").last() == Some(item)
        })
    }

    /// `Module.name` of the definitions and proofs; a field or case of a type of the code.
    pub fn has_member(&self, of: &str, name: &str) -> bool {
        self.members.get(of).is_some_and(|names| names.contains(name))
    }

    /// A word of the sources, or the name of a file or a folder.
    pub fn has_word(&self, word: &str) -> bool {
        self.words.contains(word)
            || self.files.iter().any(|file| {
                file.iter().any(|part| part == word)
                    || file.file_stem().is_some_and(|stem| stem == word)
            })
    }

    /// The words that a function's contract cites, with those that their definitions are built from.
    pub fn cited_by(&self, function: &str) -> Words {
        let mut cited = Words::new();
        let mut open: Vec<&String> = self.items.get(function).into_iter().flatten().collect();
        while let Some(word) = open.pop() {
            if cited.insert(word.clone()) {
                open.extend(self.definitions.get(word).into_iter().flatten());
            }
        }
        cited
    }
}
