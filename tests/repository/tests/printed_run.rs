//! The command `printed-run`, in a repository of its own whose `rt` is played by a script.

mod common;

use common::{alone, outcome, Folder, Outcome};
use repository::root;
use std::env;
use std::fs;
use std::os::unix::fs::symlink;
use std::process::Command;
use std::time::SystemTime;

/// What `printed-run` takes from the path, beside `rt`, and what the script that plays `rt` takes.
const TOOLS: [&str; 12] = [
    "bash",
    "cat",
    "chmod",
    "dirname",
    "find",
    "mkdir",
    "readlink",
    "rm",
    "sha256sum",
    "sort",
    "tee",
    "xargs",
];

/// Called in the crate's folder, proves one crate, and makes a program that prints its document and says what stands in its
/// script; then runs the program there, where it fails.
const RT: &str = r#"#!/bin/sh
echo "$*" >>../../calls
echo 'fn base::index_of: proved' >&2
echo 'crate base: modules loaded=0 checked=12' >&2
echo 'logic=proved functions=1' >&2
echo 'crate machine: modules loaded=12 checked=0' >&2
if [ -e ../../broken ]; then echo 'logic=not-proved' >&2; echo 'rt: machine NOT PROVED' >&2; exit 1; fi
echo 'logic=proved functions=1' >&2
mkdir -p out
printf '#!/bin/sh\ncat doc\ncat script >&2\n' >out/printed_run
chmod +x out/printed_run
out/printed_run
"#;

struct Repository(Folder);

impl Repository {
    fn new() -> Self {
        let folder = Folder::new();
        fs::copy(root().join("printed-run"), folder.path("printed-run")).expect("printed-run");
        folder.write("crates.txt", "base:\n");
        folder.write("crates/base/src/lib.rt", "// code\n");
        folder.write("crates/printed_run/src/main.rt", "// code\n");
        folder.write("reel/doc", "printed\n");
        folder.write("reel/script", "");
        folder.write_program("bin/rt", RT);
        let path = env::var_os("PATH").expect("a path");
        for tool in TOOLS {
            let found =
                env::split_paths(&path).map(|place| place.join(tool)).find(|tool| tool.exists());
            symlink(found.expect(tool), folder.path("bin").join(tool)).expect("a link");
        }
        Repository(folder)
    }

    fn run(&self, arguments: &[&str]) -> Outcome {
        self.run_as("printed-run", arguments)
    }

    /// By another path to the command.
    fn run_as(&self, path: &str, arguments: &[&str]) -> Outcome {
        let mut command = Command::new(self.0.path(path));
        command.args(arguments).current_dir(self.0.path("")).env("PATH", self.0.path("bin"));
        outcome(command.env("CDPATH", "crates").env("OLDPWD", "reel"))
    }

    /// How often `rt` was called.
    fn calls(&self) -> usize {
        fs::read_to_string(self.0.path("calls")).map_or(0, |calls| calls.lines().count())
    }
}

fn said(status: i32, out: &str, err: &str) -> Outcome {
    Outcome { status, out: out.to_string(), err: err.to_string() }
}

#[test]
fn what_is_missing_is_said_in_one_sentence() {
    let _alone = alone();
    let repository = Repository::new();
    let one = said(2, "", "printed-run: name one folder, with the files doc and script in it\n");
    assert_eq!(repository.run(&[]), one);
    assert_eq!(repository.run(&["reel", "reel"]), one);
    assert_eq!(repository.run(&[""]), one);
    for folder in ["none", "-", "-P"] {
        let sentence = format!("printed-run: there is no folder {folder}\n");
        assert_eq!(repository.run(&[folder]), said(2, "", &sentence));
    }
    for file in ["doc", "script"] {
        let repository = Repository::new();
        fs::remove_file(repository.0.path("reel").join(file)).unwrap();
        let sentence = format!("printed-run: there is no file {file} in the folder reel\n");
        assert_eq!(repository.run(&["reel"]), said(2, "", &sentence));
        assert_eq!(repository.calls(), 0);
    }
    fs::remove_file(repository.0.path("bin/rt")).unwrap();
    let sentence = "printed-run: the program must be proved and built first, and there is no rt on the path (README.md, \"Install\")\n";
    assert_eq!(repository.run(&["reel"]), said(3, "", sentence));
}

const PROGRESS: &str = "proving and building, some minutes the first time: base machine\n";

#[test]
fn later_runs_start_at_once() {
    let _alone = alone();
    let repository = Repository::new();
    assert_eq!(repository.run(&["reel"]), said(0, "printed\n", PROGRESS));
    assert_eq!(fs::read_to_string(repository.0.path("calls")).unwrap(), "run\n");
    let again = said(0, "printed\n", "");
    assert_eq!(repository.run(&["reel"]), again);
    let touched = fs::File::options().append(true).open(repository.0.path("crates.txt")).unwrap();
    touched.set_modified(SystemTime::now()).unwrap();
    assert_eq!(repository.run(&["reel"]), again);
    fs::remove_file(repository.0.path("bin/rt")).unwrap();
    assert_eq!(repository.run(&["reel/"]), again);
    assert_eq!(repository.calls(), 1);
}

#[test]
fn the_folder_and_the_command_may_have_any_name() {
    let _alone = alone();
    let repository = Repository::new();
    repository.run(&["reel"]);
    for folder in ["-", "-P", "two words", "base"] {
        repository.0.write(&format!("{folder}/doc"), folder);
        repository.0.write(&format!("{folder}/script"), "");
        assert_eq!(repository.run(&[folder]), said(0, folder, ""));
    }
    symlink(repository.0.path("printed-run"), repository.0.path("bin/player")).expect("a link");
    let folder = repository.0.path("reel");
    let run = repository.run_as("bin/player", &[folder.to_str().expect("text")]);
    assert_eq!(run, said(0, "printed\n", ""));
    assert_eq!(repository.calls(), 1);
}

#[test]
fn changed_sources_and_another_program_are_proved_once_more() {
    let _alone = alone();
    let repository = Repository::new();
    repository.run(&["reel"]);
    repository.0.write("crates/base/src/lib.rt", "// other code\n");
    assert_eq!(repository.run(&["reel"]), said(0, "printed\n", PROGRESS));
    repository.0.write("crates/base/src/new.rt", "");
    assert_eq!(repository.run(&["reel"]), said(0, "printed\n", PROGRESS));
    // a program that was made from other sources
    repository.0.write("crates/printed_run/out/printed_run", "#!/bin/sh\necho other");
    assert_eq!(repository.run(&["reel"]), said(0, "printed\n", PROGRESS));
    assert_eq!(repository.run(&["reel"]), said(0, "printed\n", ""));
    assert_eq!(repository.calls(), 4);
}

#[test]
fn what_is_not_proved_is_not_run() {
    let _alone = alone();
    let repository = Repository::new();
    repository.run(&["reel"]);
    repository.0.write("broken", "");
    repository.0.write("crates/base/src/lib.rt", "// wrong code\n");
    for calls in [2, 3] {
        let run = repository.run(&["reel"]);
        assert_eq!((run.status, &*run.out), (3, ""));
        assert!(run.err.contains("rt: machine NOT PROVED\n"), "{}", run.err);
        assert!(run.err.ends_with("printed-run: the program is not proved, and was not run\n"));
        assert_eq!(repository.calls(), calls);
    }
}

#[test]
fn what_the_program_could_not_read_gives_a_status() {
    let _alone = alone();
    let repository = Repository::new();
    repository.0.write("reel/script", "script: cannot be read");
    repository.run(&["reel"]);
    let wanted = said(1, "printed\n", "printed-run: script: cannot be read\n");
    assert_eq!(repository.run(&["reel"]), wanted);
}
