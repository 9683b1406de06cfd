//! The program `printed_run`, started on files of a folder made for it, and the comparison of what
//! it prints with the second engine's printed run.

use std::path::{Path, PathBuf};
use std::process::{self, Command, Output};
use std::{env, fs};

use crate::compare::Difference;

/// The program that PRINTED_RUN names, or else the one that `rt run` in `crates/printed_run` leaves.
pub fn program() -> PathBuf {
    let path = env::var_os("PRINTED_RUN").map_or_else(
        || Path::new(env!("CARGO_MANIFEST_DIR")).join("../../crates/printed_run/out/printed_run"),
        PathBuf::from,
    );
    // A relative path would be looked up in the folder that the program is started in.
    fs::canonicalize(&path).unwrap_or_else(|_| {
        panic!("{}: not there; run `rt run` in crates/printed_run", path.display())
    })
}

/// A folder under the system's temporary one, removed in the end, also by a failing test.
pub struct Folder {
    path: PathBuf,
}

impl Folder {
    /// The name keeps apart the folders of one process.
    pub fn new(name: &str) -> Self {
        let path = env::temp_dir().join(format!("printed-run-{}-{name}", process::id()));
        // An earlier process with the same id may have been killed.
        let _ = fs::remove_dir_all(&path);
        fs::create_dir(&path).unwrap_or_else(|error| panic!("{}: {error}", path.display()));
        Folder { path }
    }

    pub fn path(&self) -> &Path {
        &self.path
    }

    pub fn write(&self, document: &[u8], script: &[u8]) {
        for (name, bytes) in [("doc", document), ("script", script)] {
            let path = self.path.join(name);
            fs::write(&path, bytes).unwrap_or_else(|error| panic!("{}: {error}", path.display()));
        }
    }
}

impl Drop for Folder {
    fn drop(&mut self) {
        let _ = fs::remove_dir_all(&self.path);
    }
}

/// The program with a folder for its files.
pub struct Program {
    path: PathBuf,
    pub folder: Folder,
}

impl Program {
    pub fn new(test: &str) -> Self {
        Program { path: program(), folder: Folder::new(test) }
    }

    /// Starts the program on what is in the folder now.
    pub fn start(&self) -> Output {
        let output = Command::new(&self.path).current_dir(self.folder.path()).output();
        output.unwrap_or_else(|error| panic!("{}: {error}", self.path.display()))
    }

    /// What the program prints, if that is all it does.
    pub fn print(&self, document: &[u8], script: &[u8]) -> Result<String, Difference> {
        self.folder.write(document, script);
        let Output { status, stdout, stderr } = self.start();
        if !status.success() || !stderr.is_empty() {
            let message = String::from_utf8_lossy(&stderr);
            return Err(format!("the program ends with {status} and says {message:?}"));
        }
        String::from_utf8(stdout).map_err(|error| format!("the program prints no text: {error}"))
    }

    /// What both engines print.
    pub fn compare(&self, document: &[u8], script: &[u8]) -> Result<String, Difference> {
        let printed = self.print(document, script)?;
        same_run(&printed, &second_engine::printed_run(document, script))?;
        Ok(printed)
    }
}

/// Byte for byte, or the first line that differs.
pub fn same_run(program: &str, second: &str) -> Result<(), Difference> {
    if program == second {
        return Ok(());
    }
    let mut lines = (1..).zip(lines_of(program).zip(lines_of(second)));
    let (number, (line, second)) =
        lines.find(|(_, (line, second))| line != second).expect("two runs differ in a line");
    Err(format!("line {number} differs\nprogram {line:?}\nsecond  {second:?}"))
}

/// The lines with their line feeds, and nothing for each line after the last.
fn lines_of(run: &str) -> impl Iterator<Item = Option<&str>> {
    run.split_inclusive('\n').map(Some).chain(std::iter::repeat(None))
}
