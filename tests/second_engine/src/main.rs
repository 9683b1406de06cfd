//! Prints the run of the files `doc` and `script` in the folder given as the only argument.

use std::path::Path;
use std::process::ExitCode;

use second_engine::printed_run;

fn main() -> ExitCode {
    let arguments: Vec<_> = std::env::args_os().skip(1).collect();
    let [folder] = &arguments[..] else {
        eprintln!("usage: second-engine-run <folder with the files doc and script>");
        return ExitCode::FAILURE;
    };
    let read = |name| {
        let path = Path::new(folder).join(name);
        std::fs::read(&path).map_err(|error| format!("{}: {error}", path.display()))
    };
    match read("doc").and_then(|doc| Ok((doc, read("script")?))) {
        Ok((doc, script)) => {
            print!("{}", printed_run(&doc, &script));
            ExitCode::SUCCESS
        }
        Err(message) => {
            eprintln!("{message}");
            ExitCode::FAILURE
        }
    }
}
