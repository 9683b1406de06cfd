//! The printed run of 01 and its starred examples.

mod common;

use common::{document, hex, run, script, session_after};
use second_engine::document::Comparator;
use second_engine::{load, printed_run, Refusal, State};

const DOCUMENT: &str = "00 02  01 00 FF 00 00  01 01 00 03 00  02 01 01 00 02 00  \
                        03 00 00 00 00  07 00 01  08 00 02 00 01 FF  09 06 00 8C 05 00 00";

const NOTATION: &str = "head 2; context 255; media 0 3; anchor 1 1 2; property 0; port 0 1; \
                        link anchor 0 starts; set 0 1420";

#[test]
fn the_notation_of_the_tests_gives_the_same_bytes() {
    assert_eq!(document(NOTATION), hex(DOCUMENT));
    assert_eq!(script("start 0; tick; key 9"), hex("01 01 00 00 00 00 00 03 02 09"));
}

// *this run
#[test]
fn the_printed_run() {
    let printed = printed_run(&hex(DOCUMENT), &script("start 0; tick; tick; tick"));
    assert_eq!(
        printed,
        "1 ok 2 0 1.1.1 1.0.1\n\
         2 ok 4 1 2.0.1 5.0.0 3.0.1 3.0.2\n\
         3 ok 1 0 2.0.2\n\
         4 ok 2 0 1.1.2 1.0.2\n"
    );
}

#[test]
fn values_and_counts_in_the_printed_run() {
    let session = session_after(NOTATION, "start 0; tick");
    let property = session.read(3, 0).unwrap();
    assert_eq!((property.state, property.value, property.count), (State::Sleeping, 1420, 1));
    let session = session_after(NOTATION, "start 0; tick; tick; tick");
    for (class, id, value) in [(1, 0, 0), (1, 1, 0), (2, 0, 0), (3, 0, 1420)] {
        let reading = session.read(class, id).unwrap();
        assert_eq!((reading.state, reading.value, reading.count), (State::Sleeping, value, 1));
    }
}

// *start 0 twice, the second `ok 0 0`
#[test]
fn start_twice() {
    let printed = printed_run(&hex(DOCUMENT), &script("start 0; start 0"));
    assert_eq!(printed, "1 ok 2 0 1.1.1 1.0.1\n2 ok 0 0\n");
}

// *abort 0 after call 1 logs 1.1.3 1.0.3 and counts stay 0
#[test]
fn abort_of_the_context() {
    assert_eq!(run(NOTATION, "start 0; abort 0")[1], "2 ok 2 0 1.1.3 1.0.3");
    let session = session_after(NOTATION, "start 0; abort 0");
    for (class, id) in [(1, 0), (1, 1), (2, 0), (3, 0)] {
        assert_eq!(session.read(class, id).unwrap().count, 0);
    }
}

// *abort 1 there logs 1.1.3 1.0.2, count of node 0 is 1
#[test]
fn abort_of_the_media() {
    assert_eq!(run(NOTATION, "start 0; abort 1")[1], "2 ok 2 0 1.1.3 1.0.2");
    let session = session_after(NOTATION, "start 0; abort 1");
    assert_eq!(session.read(1, 0).unwrap().count, 1);
    assert_eq!(session.read(1, 1).unwrap().count, 0);
}

// *pause 1 then stop 1 there: count of node 1 is 1
#[test]
fn pause_then_stop() {
    let printed = run(NOTATION, "start 0; pause 1; stop 1");
    assert_eq!(printed[1..], ["2 ok 2 0 1.1.4 1.0.4", "3 ok 2 0 1.1.2 1.0.2"]);
    let session = session_after(NOTATION, "start 0; pause 1; stop 1");
    assert_eq!(session.read(1, 1).unwrap().count, 1);
}

// *call 1 with 8 log bytes accepted, *with 7 refused 12
#[test]
fn first_call_with_just_enough_and_too_few_log_bytes() {
    let new = load(&hex(DOCUMENT)).unwrap();
    let mut session = new.clone();
    let mut log = [0xFF; 8];
    assert_eq!(session.command(1, 0, 0, &mut log), Ok(0));
    assert_eq!(log, [1, 1, 1, 0, 1, 0, 1, 0]);
    let mut session = new.clone();
    let mut log = [0xFF; 7];
    assert_eq!(session.command(1, 0, 0, &mut log), Err(Refusal::LogFull));
    assert_eq!(log, [0; 7]);
    assert_eq!(session, new);
}

// *with a second link, on 3.0.2, that sets property 0, call 2 of this run is refused 11
#[test]
fn second_link_meets_the_limit() {
    let text = format!("{NOTATION}; link property 0 stops; set 0 7");
    let printed = run(&text, "start 0; tick; tick");
    assert_eq!(printed, ["1 ok 2 0 1.1.1 1.0.1", "2 no 11", "3 no 11"]);
    let session = session_after(&text, "start 0; tick");
    assert_eq!(session, session_after(&text, "start 0"));
}

// *-2,147,483,648 lt 2,147,483,647 holds
#[test]
fn least_is_less_than_greatest() {
    assert!(Comparator::Less.holds(i32::MIN, i32::MAX));
    let text = "head 1; context 255; property -2147483648; rule 0 lt 2147483647; \
                link key 0 guard 0";
    assert_eq!(run(text, "key 0"), ["1 ok 2 1 4.0.1 5.0.0"]);
}
