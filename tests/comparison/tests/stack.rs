//! The stack that the player and the program take, on the documents that take the most of it: calls
//! run on a thread, the program as a process, whose stacks have just the size that the README names.
//! Whoever takes more is ended by the system, and the test with it.

use std::process::Command;
use std::thread;

use comparison::player::Session;
use comparison::printed::{program, same_run, Folder};
use comparison::reports::{longest_report, nested_report, script_of, wide_report};
use second_engine::{load, printed_run, Call};

/// Of one call, with the frames of the function that makes it.
const CALL_STACK: usize = 128 * 1024;

/// Of the program, in units of 1,024 bytes.
const PROGRAM_STACK: &str = "512";

const BROKEN: u8 = 13;
const CONTEXT: u8 = 0;
const SWITCH: u8 = 2;

fn documents() -> Vec<Vec<u8>> {
    let nested = [[CONTEXT, CONTEXT], [SWITCH, SWITCH], [CONTEXT, SWITCH]].map(nested_report);
    nested.into_iter().chain([wide_report(), longest_report(9)]).collect()
}

/// Every action on node 0, from start to resume, and ticks between them.
fn calls() -> Vec<Call> {
    let command = |action| Call::Command { action, target: 0, value: 0 };
    let actions = [1, 4, 5, 2, 1, 3, 1];
    actions.into_iter().flat_map(|action| [command(action), Call::Tick]).collect()
}

fn on_small_stack(run: impl FnOnce() + Send + 'static) {
    let thread = thread::Builder::new().stack_size(CALL_STACK).spawn(run);
    thread.expect("a thread of this size").join().expect("the thread's asserts hold");
}

#[test]
fn calls_take_little_stack() {
    for document in documents() {
        let mut second = load(&document).expect("the document loads");
        let mut session = Box::new(Session::load(&document).0);
        let mut log = vec![0; 65_536];
        let mut expected = log.clone();
        let answers: Vec<_> = calls()
            .into_iter()
            .map(|call| {
                let answer = second.call(call, &mut expected).map_err(|refusal| refusal.number());
                (call, answer)
            })
            .collect();
        on_small_stack(move || {
            for (call, answer) in answers {
                assert_eq!(session.call(call, &mut log), answer);
            }
            assert_eq!(log, expected);
            assert!(session.read(1, 0).is_ok());
            assert_ne!(session.check_counts(63, 0).refusal, BROKEN);
            assert_ne!(session.count_of(0, 0).refusal, BROKEN);
        });
    }
}

#[test]
fn load_takes_little_stack() {
    for document in documents() {
        on_small_stack(move || assert_eq!(Session::load(&document).1, Ok(0)));
    }
}

#[test]
fn the_program_takes_little_stack() {
    let folder = Folder::new("stack");
    let script = script_of(&calls());
    for document in documents() {
        folder.write(&document, &script);
        let output = Command::new("sh")
            .args(["-c", "ulimit -s \"$0\" && exec \"$1\"", PROGRAM_STACK])
            .arg(program())
            .current_dir(folder.path())
            .output()
            .expect("sh starts");
        assert!(output.status.success(), "the program ends with {}", output.status);
        let printed = String::from_utf8(output.stdout).expect("the program prints text");
        same_run(&printed, &printed_run(&document, &script)).expect("both print the same");
    }
}
