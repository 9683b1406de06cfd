//! The printed run of a document and a script.
//!
//! Readings of 01:
//! - After `doc` and the number the run is over: there is no session to call.
//! - Each call is printed as it is read, so the calls before a wrong or cut record are printed.
//! - Every printed line ends with a line feed, the last one too.

use crate::call::Call;
use crate::fields::Fields;
use crate::probe::{Fault, Probe};
use crate::session::load;

pub const PRINTED_RUN_LOG_LENGTH: usize = 65_536;

pub fn printed_run(doc: &[u8], script: &[u8]) -> String {
    printed_run_with(doc, script, None)
}

/// What an engine prints in which a fault may be planted.
pub fn printed_run_with(doc: &[u8], script: &[u8], fault: Option<Fault>) -> String {
    let mut session = match load(doc) {
        Ok(session) => session,
        Err(refusal) => return format!("doc {}\n", refusal.number()),
    };
    let mut log = vec![0; PRINTED_RUN_LOG_LENGTH];
    let mut records = Fields::of(script);
    let mut printed = String::new();
    let mut number = 0;
    while !records.is_empty() {
        let Some(call) = Call::read(&mut records) else {
            printed.push_str("script\n");
            break;
        };
        number += 1;
        let mut probe = Probe { fault, ..Probe::default() };
        let answer = match session.probed_call(call, &mut log, &mut probe) {
            Ok(firings) => {
                let lines = lines_of(&log);
                let mut answer = format!("ok {} {firings}", lines.len());
                for [class, id, transition, _] in lines {
                    answer.push_str(&format!(" {class}.{id}.{transition}"));
                }
                answer
            }
            Err(refusal) => format!("no {}", refusal.number()),
        };
        printed.push_str(&format!("{number} {answer}\n"));
    }
    printed
}

/// The lines in a log slice: its whole groups of 4 bytes before the first of class 0.
pub fn lines_of(log: &[u8]) -> Vec<[u8; 4]> {
    log.chunks_exact(4)
        .map(|group| [group[0], group[1], group[2], group[3]])
        .take_while(|line| line[0] != 0)
        .collect()
}
