//! The repository around its crates: what the documents name, and what the sources declare.

pub mod names;
pub mod sources;
pub mod trace;

use std::fs;
use std::path::{Path, PathBuf};

/// The repository's root.
pub fn root() -> PathBuf {
    Path::new(env!("CARGO_MANIFEST_DIR")).join("../..").canonicalize().expect("the root is there")
}

/// A file of the repository, by its path from the root.
pub fn read(path: impl AsRef<Path>) -> String {
    let path = root().join(path);
    fs::read_to_string(&path).unwrap_or_else(|error| panic!("{}: {error}", path.display()))
}

/// What is built by cargo or by rt, in a crate's `out`, or kept by git.
fn is_built(path: &Path) -> bool {
    let is_in_crate = |path: &Path| {
        path.parent().and_then(Path::parent).is_some_and(|folder| folder.ends_with("crates"))
    };
    path.ends_with("target") || path.ends_with(".git") || path.ends_with("out") && is_in_crate(path)
}

/// All files below a folder, in order; what is built or kept by git is left out.
pub fn files_below(folder: &Path) -> Vec<PathBuf> {
    let mut entries: Vec<_> = fs::read_dir(folder)
        .unwrap_or_else(|error| panic!("{}: {error}", folder.display()))
        .map(|entry| entry.expect("an entry").path())
        .filter(|path| !is_built(path))
        .collect();
    entries.sort();
    entries
        .into_iter()
        .flat_map(|path| if path.is_dir() { files_below(&path) } else { vec![path] })
        .collect()
}
