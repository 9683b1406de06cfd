//! Corner documents of the event machine, worked out by hand from the words of 01 and of Req 01.

mod common;

use common::{document, run, script, session_after, written_after};
use second_engine::document::Comparator;
use second_engine::{load, printed_run, Reading, Refusal, State};

/// Node 0 a context with ports to media 1 and 2, which have no natural end.
const TWO_MEDIA: &str = "head 9; context 255; media 0 0; media 0 0; port 0 1; port 0 2;";

/// Node 0 with media 1 of 4 ticks and three anchors, two of them from the start on.
const ANCHORED: &str = "head 9; context 255; media 0 4; port 0 1; \
                        anchor 1 2 3; anchor 1 0 2; anchor 1 0 1;";

/// Node 0 with context 1, in it switch 2, in it media 3; media 4 in node 0.
const NESTED: &str = "head 9; context 255; context 0; switch 1; media 2 0; media 0 0; \
                      port 0 1; port 1 2; default 2 3; port 0 4;";

// Start

// "A sleeping context starts its ports' children in record order"
#[test]
fn ports_start_in_record_order() {
    let text = "head 1; context 255; media 0 0; media 0 0; port 0 2; port 0 1";
    assert_eq!(run(text, "start 0"), ["1 ok 3 0 1.2.1 1.1.1 1.0.1"]);
}

// Only ports' children start; "with no child, sleeping".
#[test]
fn context_without_ports_or_children_stays_asleep() {
    assert_eq!(run("head 1; context 255; media 0 0", "start 0"), ["1 ok 0 0"]);
    assert_eq!(
        run("head 1; context 255", "start 0; stop 0; tick"),
        ["1 ok 0 0", "2 ok 0 0", "3 ok 0 0"]
    );
}

// "starts the child of its first bind whose rule holds, else its default", wherever that stands.
#[test]
fn default_bind_in_first_place() {
    let text = "head 1; context 255; switch 0; media 1 0; media 1 0; property 0; rule 0 eq 1; \
                default 1 2; bind 1 3 0; port 0 1";
    assert_eq!(run(text, "start 0"), ["1 ok 3 0 1.2.1 1.1.1 1.0.1"]);
    assert_eq!(run(text, "set 0 1; start 0")[1], "2 ok 3 0 1.3.1 1.1.1 1.0.1");
}

// "its first bind whose rule holds": record order, not child order; the default is in between.
#[test]
fn first_holding_bind_decides() {
    let text = "head 1; context 255; switch 0; media 1 0; media 1 0; media 1 0; property 0; \
                rule 0 gt 0; rule 0 gt 1; bind 1 4 1; default 1 2; bind 1 3 0";
    assert_eq!(run(text, "start 1"), ["1 ok 3 0 1.2.1 1.1.1 1.0.1"]);
    assert_eq!(run(text, "set 0 1; start 1")[1], "2 ok 3 0 1.3.1 1.1.1 1.0.1");
    assert_eq!(run(text, "set 0 2; start 1")[1], "2 ok 3 0 1.4.1 1.1.1 1.0.1");
}

// "else nothing"
#[test]
fn switch_without_holding_bind_and_default_starts_nothing() {
    let text = "head 1; context 255; switch 0; media 1 0; property 0; rule 0 ne 0; bind 1 2 0; \
                port 0 1";
    assert_eq!(run(text, "start 1; start 0"), ["1 ok 0 0", "2 ok 0 0"]);
}

// "Start of an awake composite does nothing", also when another rule holds by now.
#[test]
fn awake_switch_is_not_decided_anew() {
    let text = "head 1; context 255; switch 0; media 1 0; media 1 0; property 0; rule 0 eq 1; \
                bind 1 3 0; default 1 2";
    let printed = run(text, "start 1; set 0 1; start 1; stop 1; start 1");
    assert_eq!(
        printed[2..],
        ["3 ok 0 0", "4 ok 3 0 1.2.2 1.1.2 1.0.2", "5 ok 3 0 1.3.1 1.1.1 1.0.1"]
    );
}

// A child of a switch may be started beside the chosen one.
#[test]
fn second_child_of_a_switch_by_command() {
    let text = "head 1; context 255; switch 0; media 1 0; media 1 0; default 1 2";
    let printed = run(text, "start 1; start 3; stop 2; stop 3");
    assert_eq!(printed[1..], ["2 ok 1 0 1.3.1", "3 ok 1 0 1.2.2", "4 ok 3 0 1.3.2 1.1.2 1.0.2"]);
}

// "contexts and switches nest in each other"; settling "composites by descending id".
#[test]
fn nested_start_settles_by_descending_id() {
    assert_eq!(run(NESTED, "start 0"), ["1 ok 5 0 1.3.1 1.4.1 1.2.1 1.1.1 1.0.1"]);
    // Context 4 lies in context 1 and settles before context 2 does.
    let text = "head 1; context 255; context 0; context 0; media 1 0; context 1; media 4 0; \
                media 2 0; port 0 1; port 0 2; port 1 3; port 1 4; port 4 5; port 2 6";
    assert_eq!(run(text, "start 0"), ["1 ok 7 0 1.3.1 1.5.1 1.6.1 1.4.1 1.2.1 1.1.1 1.0.1"]);
}

// A media started by itself wakes all composites above it.
#[test]
fn start_of_a_deep_media_wakes_its_composites() {
    assert_eq!(
        run(NESTED, "start 3; start 1; start 0"),
        ["1 ok 4 0 1.3.1 1.2.1 1.1.1 1.0.1", "2 ok 0 0", "3 ok 0 0"]
    );
}

// "Start of an awake composite does nothing" (paused is awake); "paused to occurring resumes".
#[test]
fn start_under_a_paused_composite() {
    let text = "head 1; context 255; media 0 0; media 0 0; port 0 1";
    let printed = run(text, "start 0; pause 0; start 0; start 1; start 2");
    assert_eq!(
        printed[1..],
        ["2 ok 2 0 1.1.4 1.0.4", "3 ok 0 0", "4 ok 0 0", "5 ok 2 0 1.2.1 1.0.5"]
    );
}

// The table of state and action

// "every other pair changes and logs nothing"
#[test]
fn pairs_without_effect() {
    let printed = run(
        TWO_MEDIA,
        "stop 1; abort 1; pause 1; resume 1; start 1; start 1; resume 1; pause 1; pause 1; start 1",
    );
    assert_eq!(
        printed,
        [
            "1 ok 0 0",
            "2 ok 0 0",
            "3 ok 0 0",
            "4 ok 0 0",
            "5 ok 2 0 1.1.1 1.0.1",
            "6 ok 0 0",
            "7 ok 0 0",
            "8 ok 2 0 1.1.4 1.0.4",
            "9 ok 0 0",
            "10 ok 0 0"
        ]
    );
}

// "stop and abort put an awake one to sleep", also from paused.
#[test]
fn stop_and_abort_of_a_paused_media() {
    let printed = run(TWO_MEDIA, "start 1; pause 1; stop 1; start 1; pause 1; abort 1");
    assert_eq!(printed[2], "3 ok 2 0 1.1.2 1.0.2");
    assert_eq!(printed[5], "6 ok 2 0 1.1.3 1.0.2");
}

// "act on ... every media below it, ids ascending": not in the order of the tree or the ports.
#[test]
fn composites_act_on_media_by_ascending_id() {
    let text = "head 1; context 255; context 0; media 0 0; media 1 0; port 0 1; port 1 3; port 0 2";
    let printed = run(text, "start 0; pause 0; resume 0; stop 0");
    assert_eq!(
        printed,
        [
            "1 ok 4 0 1.3.1 1.2.1 1.1.1 1.0.1",
            "2 ok 4 0 1.2.4 1.3.4 1.1.4 1.0.4",
            "3 ok 4 0 1.2.5 1.3.5 1.1.5 1.0.5",
            "4 ok 4 0 1.2.2 1.3.2 1.1.2 1.0.2"
        ]
    );
}

// Settling

// "paused if a child is": the stop of one child while the other is paused.
#[test]
fn stop_of_one_child_while_another_is_paused() {
    let printed = run(TWO_MEDIA, "start 0; pause 2; stop 1; stop 2");
    assert_eq!(printed[1..], ["2 ok 1 0 1.2.4", "3 ok 2 0 1.1.2 1.0.4", "4 ok 2 0 1.2.2 1.0.2"]);
    let session = session_after(TWO_MEDIA, "start 0; pause 2; stop 1; stop 2");
    assert_eq!(session.read(1, 0).unwrap().count, 1);
}

// "Settling comes once after each action": the stopped context logs no pause in between.
#[test]
fn stop_of_a_context_with_a_paused_media_logs_no_pause() {
    let printed = run(TWO_MEDIA, "start 0; pause 2; stop 0");
    assert_eq!(printed[2], "3 ok 3 0 1.1.2 1.2.2 1.0.2");
}

#[test]
fn resume_of_one_of_two_paused() {
    let printed = run(TWO_MEDIA, "start 0; pause 0; resume 1; resume 0");
    assert_eq!(printed[2..], ["3 ok 2 0 1.1.5 1.0.5", "4 ok 1 0 1.2.5"]);
}

// "the target and composites below it log aborts instead; those above log stops"
#[test]
fn abort_lines_above_and_below() {
    let printed = run(NESTED, "start 3; abort 1");
    assert_eq!(printed[1], "2 ok 4 0 1.3.3 1.2.3 1.1.3 1.0.2");
    let session = session_after(NESTED, "start 3; abort 1");
    let counts: Vec<u32> = (0..4).map(|node| session.read(1, node).unwrap().count).collect();
    assert_eq!(counts, [1, 0, 0, 0]);
    assert_eq!(run(NESTED, "start 3; abort 2")[1], "2 ok 4 0 1.3.3 1.2.3 1.1.2 1.0.2");
    assert_eq!(run(NESTED, "start 3; abort 3")[1], "2 ok 4 0 1.3.3 1.2.2 1.1.2 1.0.2");
    assert_eq!(run(NESTED, "start 0; abort 0")[1], "2 ok 5 0 1.3.3 1.4.3 1.2.3 1.1.3 1.0.3");
}

// An abort leaves composites above awake when another child is, or has them paused.
#[test]
fn abort_beside_an_awake_sibling() {
    assert_eq!(run(NESTED, "start 0; abort 1")[1], "2 ok 3 0 1.3.3 1.2.3 1.1.3");
    assert_eq!(run(NESTED, "start 0; pause 4; abort 1")[2], "3 ok 4 0 1.3.3 1.2.3 1.1.3 1.0.4");
}

// Anchors

// "on start those with begin 0 start"; "Anchor lines in id order follow the media's line for
// start and resume, and precede it for stop, abort and pause."
#[test]
fn anchor_lines_around_the_media_line() {
    let printed = run(ANCHORED, "start 0; pause 0; resume 0; stop 0; start 1; abort 1");
    assert_eq!(
        printed,
        [
            "1 ok 4 0 1.1.1 2.1.1 2.2.1 1.0.1",
            "2 ok 4 0 2.1.4 2.2.4 1.1.4 1.0.4",
            "3 ok 4 0 1.1.5 2.1.5 2.2.5 1.0.5",
            "4 ok 4 0 2.1.2 2.2.2 1.1.2 1.0.2",
            "5 ok 4 0 1.1.1 2.1.1 2.2.1 1.0.1",
            "6 ok 4 0 2.1.3 2.2.3 1.1.3 1.0.2"
        ]
    );
    let session = session_after(ANCHORED, "start 0; stop 0; start 1; abort 1");
    let counts: Vec<u32> = (0..3).map(|anchor| session.read(2, anchor).unwrap().count).collect();
    assert_eq!(counts, [0, 1, 1]);
}

// "its awake anchors with end = clock stop in id order, then those with begin = clock start"
#[test]
fn anchor_ends_and_begins_in_the_same_tick() {
    let text = "head 1; context 255; media 0 0; port 0 1; \
                anchor 1 2 3; anchor 1 1 2; anchor 1 2 4; anchor 1 0 2";
    assert_eq!(
        run(text, "start 0; tick; tick; tick; tick; tick")[1..],
        [
            "2 ok 1 0 2.1.1",
            "3 ok 4 0 2.1.2 2.3.2 2.0.1 2.2.1",
            "4 ok 1 0 2.0.2",
            "5 ok 1 0 2.2.2",
            "6 ok 0 0"
        ]
    );
}

// Pausing inside an anchor holds the clock, and the anchor ends on its tick after the resume.
#[test]
fn pause_inside_an_anchor() {
    let text = "head 9; context 255; media 0 0; port 0 1; anchor 1 1 3; property 0; \
                link anchor 0 starts; set 0 1; link anchor 0 resumes; set 0 2; \
                link anchor 0 stops; set 0 3";
    assert_eq!(
        run(text, "start 0; tick; pause 0; tick; resume 0; tick; tick")[1..],
        [
            "2 ok 4 1 2.0.1 5.0.0 3.0.1 3.0.2",
            "3 ok 3 0 2.0.4 1.1.4 1.0.4",
            "4 ok 0 0",
            "5 ok 6 1 1.1.5 2.0.5 1.0.5 5.1.0 3.0.1 3.0.2",
            "6 ok 0 0",
            "7 ok 4 1 2.0.2 5.2.0 3.0.1 3.0.2"
        ]
    );
}

// "Waking sets the clock to 0; so does going to sleep."
#[test]
fn clock_starts_again() {
    let session = written_after(ANCHORED, "start 0; tick; tick; tick");
    assert_eq!(session.nodes[1].clock, 3);
    let session = written_after(ANCHORED, "start 0; tick; tick; tick; stop 0");
    assert_eq!(session.nodes[1].clock, 0);
    let printed = run(ANCHORED, "start 0; tick; tick; tick; stop 0; start 0; tick");
    assert_eq!(
        printed[4..],
        ["5 ok 2 0 1.1.2 1.0.2", "6 ok 4 0 1.1.1 2.1.1 2.2.1 1.0.1", "7 ok 1 0 2.2.2"]
    );
}

// Tick

// "then if duration = clock it stops as by the command": an anchor's end at the duration comes
// first, by its own end.
#[test]
fn natural_end() {
    let text = "head 1; context 255; media 0 2; port 0 1; anchor 1 0 2; anchor 1 1 2";
    assert_eq!(
        run(text, "start 0; tick; tick; tick; start 0"),
        [
            "1 ok 3 0 1.1.1 2.0.1 1.0.1",
            "2 ok 1 0 2.1.1",
            "3 ok 4 0 2.0.2 2.1.2 1.1.2 1.0.2",
            "4 ok 0 0",
            "5 ok 3 0 1.1.1 2.0.1 1.0.1"
        ]
    );
    let session = session_after(text, "start 0; tick; tick");
    for (class, id) in [(1, 0), (1, 1), (2, 0), (2, 1)] {
        assert_eq!(session.read(class, id).unwrap().count, 1);
    }
}

// "Then one settling": two media end in one tick; one ends while the other is paused.
#[test]
fn one_settling_for_a_tick() {
    let text = "head 1; context 255; media 0 1; media 0 1; port 0 1; port 0 2";
    assert_eq!(run(text, "start 0; tick")[1], "2 ok 3 0 1.1.2 1.2.2 1.0.2");
    assert_eq!(run(text, "start 0; pause 2; tick")[2], "3 ok 2 0 1.1.2 1.0.4");
}

// "each occurring media ... adds one": a paused one doesn't.
#[test]
fn paused_media_does_not_tick() {
    let text = "head 1; context 255; media 0 2; port 0 1";
    assert_eq!(
        run(text, "start 0; tick; pause 1; tick; tick; resume 1; tick")[3..],
        ["4 ok 0 0", "5 ok 0 0", "6 ok 2 0 1.1.5 1.0.5", "7 ok 2 0 1.1.2 1.0.2"]
    );
}

// "A clock at 65,535 stays, and that media's anchors and end aren't looked at."
#[test]
fn greatest_clock_stays() {
    let text = "head 1; context 255; media 0 0; media 0 65535; port 0 1; port 0 2; \
                anchor 1 65534 65535; anchor 2 65534 65535";
    let ticks = vec![3; 65_537];
    let printed = printed_run(&document(text), &[script("start 0"), ticks].concat());
    let calls: Vec<&str> = printed.lines().collect();
    assert_eq!(calls[65_533], "65534 ok 0 0");
    assert_eq!(calls[65_534], "65535 ok 2 0 2.0.1 2.1.1");
    assert_eq!(calls[65_535], "65536 ok 3 0 2.0.2 2.1.2 1.2.2");
    assert_eq!(calls[65_536], "65537 ok 0 0");
    assert_eq!(calls[65_537], "65538 ok 0 0");
}

#[test]
fn greatest_clock_as_written() {
    let mut session = written_after("head 1; context 255; media 0 0; port 0 1", "start 0");
    session.nodes[1].clock = 65_534;
    for _ in 0..3 {
        assert_eq!(session.tick(&mut []), Ok(0));
        assert_eq!(session.nodes[1].clock, 65_535);
    }
    let mut log = [0; 8];
    assert_eq!(session.command(2, 1, 0, &mut log), Ok(0));
    assert_eq!(session.nodes[1].clock, 0);
    assert_eq!(log, [1, 1, 2, 0, 1, 0, 2, 0]);
}

// All media tick and settle before the first link fires.
#[test]
fn links_fire_after_all_media_have_ticked() {
    let text = "head 9; context 255; media 0 1; media 0 0; port 0 1; port 0 2; anchor 2 1 2; \
                link node 1 stops; stop 2";
    assert_eq!(run(text, "start 0; tick")[1], "2 ok 6 1 1.1.2 2.0.1 5.0.0 2.0.2 1.2.2 1.0.2");
}

// A media that a tick's link starts has not ticked in that call.
#[test]
fn media_started_by_a_tick_has_not_ticked() {
    let text = "head 9; context 255; media 0 1; media 0 0; port 0 1; anchor 2 0 1; \
                link node 1 stops; start 2";
    assert_eq!(
        run(text, "start 0; tick; tick")[1..],
        ["2 ok 6 1 1.1.2 1.0.2 5.0.0 1.2.1 2.0.1 1.0.1", "3 ok 1 0 2.0.2"]
    );
    assert_eq!(written_after(text, "start 0; tick").nodes[2].clock, 0);
}

// A link on the natural end that starts the media again.
#[test]
fn restart_at_the_natural_end() {
    let text = "head 1; context 255; media 0 1; port 0 1; link node 1 stops; start 1";
    let expected = "ok 5 1 1.1.2 1.0.2 5.0.0 1.1.1 1.0.1";
    assert_eq!(
        run(text, "start 0; tick; tick")[1..],
        [format!("2 {expected}"), format!("3 {expected}")]
    );
}

// Keys and links

// "Key logs one line: class 4, code, 1"; "subject: any byte".
#[test]
fn keys() {
    let text = "head 1; context 255; link key 255";
    assert_eq!(
        run(text, "key 0; key 255; key 7"),
        ["1 ok 1 0 4.0.1", "2 ok 2 1 4.255.1 5.0.0", "3 ok 1 0 4.7.1"]
    );
}

// A firing without actions is a line and is counted.
#[test]
fn link_without_actions() {
    let text = "head 2; context 255; media 0 0; link node 1 starts; link node 0 starts";
    assert_eq!(run(text, "start 1"), ["1 ok 4 2 1.1.1 1.0.1 5.0.0 5.1.0"]);
}

// "Its lines are taken in order from the call's first; for each, links by id."
#[test]
fn lines_in_order_then_links_by_id() {
    let text = "head 9; context 255; media 0 0; port 0 1; property 0; property 0; property 0; \
                link node 1 starts; set 0 1; link property 0 stops; set 1 2; \
                link node 0 starts; set 2 3; link node 1 starts";
    assert_eq!(
        run(text, "start 0"),
        ["1 ok 12 4 1.1.1 1.0.1 5.0.0 3.0.1 3.0.2 5.3.0 5.2.0 3.2.1 3.2.2 5.1.0 3.1.1 3.1.2"]
    );
}

// "whose guard holds on the values of that moment": values set by an earlier link count.
#[test]
fn guard_at_the_moment_of_firing() {
    let text = "head 9; context 255; property 0; rule 0 eq 1; rule 0 eq 0; link key 0; set 0 1; \
                link key 0 guard 0; link key 0 guard 1";
    assert_eq!(run(text, "key 0"), ["1 ok 5 2 4.0.1 5.0.0 3.0.1 3.0.2 5.1.0"]);
}

// The line 3.0.1 is logged before the value is stored, but its links are looked at afterwards.
#[test]
fn guard_of_a_link_on_the_starts_of_a_set() {
    let text = "head 9; context 255; property 0; rule 0 eq 5; link property 0 starts guard 0";
    assert_eq!(
        run(text, "set 0 5; set 0 4"),
        ["1 ok 3 1 3.0.1 3.0.2 5.0.0", "2 ok 2 0 3.0.1 3.0.2"]
    );
}

// Two equal lines fire a link twice.
#[test]
fn every_line_is_taken() {
    let text = "head 9; context 255; property 0; link key 0; set 0 1; set 0 2; \
                link property 0 stops";
    assert_eq!(run(text, "key 0"), ["1 ok 8 3 4.0.1 5.0.0 3.0.1 3.0.2 3.0.1 3.0.2 5.1.0 5.1.0"]);
}

// Guards end a chain that feeds itself.
#[test]
fn guarded_chain_ends() {
    let text = "head 9; context 255; property 0; rule 0 eq 0; rule 0 eq 1; \
                link property 0 stops guard 0; set 0 1; link property 0 stops guard 1; set 0 2";
    assert_eq!(run(text, "set 0 0"), ["1 ok 8 2 3.0.1 3.0.2 5.0.0 3.0.1 3.0.2 5.1.0 3.0.1 3.0.2"]);
}

// "its actions run in order, each settled"
#[test]
fn each_action_is_settled() {
    let text = "head 9; context 255; media 0 0; port 0 1; link key 0; stop 1; start 1; pause 0";
    assert_eq!(
        run(text, "start 0; key 0")[1],
        "2 ok 8 1 4.0.1 5.0.0 1.1.2 1.0.2 1.1.1 1.0.1 1.1.4 1.0.4"
    );
}

// An abort by a link logs as one by a command, and a stop in the same link logs stops.
#[test]
fn abort_as_a_link_action() {
    let text = format!("{NESTED} link key 0; abort 1; stop 0");
    assert_eq!(
        run(&text, "start 0; key 0")[1],
        "2 ok 7 1 4.0.1 5.0.0 1.3.3 1.2.3 1.1.3 1.4.2 1.0.2"
    );
}

// A link fires for its line even if an earlier link has undone the event.
#[test]
fn line_counts_and_not_the_present_state() {
    let text = "head 9; context 255; media 0 0; link node 1 starts; stop 1; link node 1 starts";
    assert_eq!(run(text, "start 1"), ["1 ok 6 2 1.1.1 1.0.1 5.0.0 1.1.2 1.0.2 5.1.0"]);
}

// Links inside a switch

/// Node 0 with switch 1, in it contexts 2 and 3 with media 4 and 5. Where property 0 is 0 a start
/// finds context 2, where it is 1 context 3, else nothing. Key 0 is heard by link 0 of context 2 and
/// link 1 of context 3.
const VARIANTS: &str = "head 9; context 255; switch 0; context 1; context 1; \
                        media 2 0; media 3 0; port 0 1; port 2 4; port 3 5; \
                        property 0; rule 0 eq 0; rule 0 eq 1; bind 1 2 0; bind 1 3 1; \
                        link in 2 key 0; link in 3 key 0;";

const NO_LINK: &str = "ok 1 0 4.0.1";
const LINK_0: &str = "ok 2 1 4.0.1 5.0.0";
const LINK_1: &str = "ok 2 1 4.0.1 5.1.0";

/// The last printed line without its number.
fn last_answer(document_text: &str, script_text: &str) -> String {
    let printed = run(document_text, script_text);
    let (_, answer) = printed[printed.len() - 1].split_once(' ').expect("a number and an answer");
    answer.to_owned()
}

/// What the session holds for each node after the calls.
fn choices(document_text: &str, script_text: &str) -> Vec<u8> {
    let session = written_after(document_text, script_text);
    session.nodes[..session.node_count].iter().map(|node| node.choice).collect()
}

// "the child on the path must be the one last chosen by a start of that switch"
#[test]
fn links_of_the_chosen_variant_alone_fire() {
    let again = "stop 1; set 0 0; start 1; key 0";
    assert_eq!(
        run(VARIANTS, &format!("start 0; key 0; stop 1; set 0 1; start 1; key 0; {again}")),
        [
            "1 ok 4 0 1.4.1 1.2.1 1.1.1 1.0.1",
            "2 ok 2 1 4.0.1 5.0.0",
            "3 ok 4 0 1.4.2 1.2.2 1.1.2 1.0.2",
            "4 ok 2 0 3.0.1 3.0.2",
            "5 ok 4 0 1.5.1 1.3.1 1.1.1 1.0.1",
            "6 ok 2 1 4.0.1 5.1.0",
            "7 ok 4 0 1.5.2 1.3.2 1.1.2 1.0.2",
            "8 ok 2 0 3.0.1 3.0.2",
            "9 ok 4 0 1.4.1 1.2.1 1.1.1 1.0.1",
            "10 ok 2 1 4.0.1 5.0.0"
        ]
    );
    assert_eq!(choices(VARIANTS, "start 0"), [0, 2, 0, 0, 0, 0]);
    assert_eq!(choices(VARIANTS, "set 0 1; start 0"), [0, 3, 0, 0, 0, 0]);
}

// "links of the variant not shown still set the count": not any more.
#[test]
fn variants_set_the_count_each_by_itself() {
    let text = "head 9; context 255; media 0 0; switch 0; context 2; context 2; media 3 0; \
                media 4 0; port 0 1; port 0 2; port 3 5; port 4 6; property 0; property 7; \
                rule 0 eq 1; default 2 3; bind 2 4 0; anchor 1 1 2; anchor 1 2 3; \
                link in 3 anchor 0 starts; set 1 100; link in 4 anchor 0 starts; set 1 200; \
                link in 3 anchor 1 starts; set 1 101; link in 4 anchor 1 starts; set 1 201";
    let value = |calls: &str| session_after(text, calls).read(3, 1).unwrap().value;
    assert_eq!(value("start 1; tick"), 7);
    assert_eq!(value("start 0; tick"), 100);
    assert_eq!(value("start 0; tick; tick"), 101);
    assert_eq!(value("set 0 1; start 0; tick"), 200);
    assert_eq!(value("start 0; tick; stop 2; set 0 1; start 2"), 100);
    assert_eq!(value("start 0; tick; stop 2; set 0 1; start 2; tick"), 201);
}

// "For every switch above the owner": without one the owner has no effect, be it node 0, a context
// beside a switch or one that has the switch below it.
#[test]
fn owner_outside_every_switch() {
    let text = format!("{VARIANTS} context 0; context 6; link in 0 key 1; link in 7 key 1;");
    for calls in ["", "start 0;", "set 0 9; start 1;", "start 3;", "start 1; abort 0;"] {
        let answer = last_answer(&text, &format!("{calls} key 1"));
        assert_eq!(answer, "ok 3 2 4.1.1 5.2.0 5.3.0", "{calls}");
    }
    let above = "head 9; context 255; context 0; switch 1; context 2; link in 1 key 0";
    assert_eq!(run(above, "key 0"), ["1 ok 2 1 4.0.1 5.0.0"]);
}

// The owner is some contexts below the chosen child.
#[test]
fn owner_far_below_the_switch() {
    let text = "head 9; context 255; switch 0; context 1; context 2; context 3; context 1; \
                property 0; rule 0 eq 1; default 1 2; bind 1 5 0; \
                link in 4 key 0; link in 2 key 0; link in 5 key 0; link in 3 key 0";
    assert_eq!(last_answer(text, "key 0"), NO_LINK);
    assert_eq!(last_answer(text, "start 1; key 0"), "ok 4 3 4.0.1 5.0.0 5.1.0 5.3.0");
    assert_eq!(last_answer(text, "set 0 1; start 1; key 0"), "ok 2 1 4.0.1 5.2.0");
}

/// Switch 1 with contexts 2 and 3, chosen by property 0; switch 4 in context 2, with contexts 5 and
/// 6, chosen by property 1. Key 0 is heard by a link of each of 2, 3, 5 and 6, in this order.
const TWO_SWITCHES: &str = "head 9; context 255; switch 0; context 1; context 1; switch 2; \
                            context 4; context 4; media 5 0; media 6 0; media 3 0; \
                            port 0 1; port 2 4; port 5 7; port 6 8; port 3 9; \
                            property 0; property 0; \
                            rule 0 eq 0; rule 0 eq 1; rule 1 eq 0; rule 1 eq 1; \
                            bind 1 2 0; bind 1 3 1; bind 4 5 2; bind 4 6 3; \
                            link in 2 key 0; link in 3 key 0; link in 5 key 0; link in 6 key 0;";

// "For every switch above the owner": both, and not the nearest or the furthest alone.
#[test]
fn every_switch_above_must_have_chosen_the_path() {
    let cases = [
        // Nothing is chosen.
        ("", [0, 0], "ok 1 0 4.0.1"),
        // Both choose.
        ("start 0;", [2, 5], "ok 3 2 4.0.1 5.0.0 5.2.0"),
        ("set 1 1; start 0;", [2, 6], "ok 3 2 4.0.1 5.0.0 5.3.0"),
        // The inner one finds no child.
        ("set 1 9; start 0;", [2, 0], "ok 2 1 4.0.1 5.0.0"),
        // The outer one has not chosen, the inner one has.
        ("start 4;", [0, 5], "ok 1 0 4.0.1"),
        // The outer one has chosen the other child, the inner one keeps its choice.
        ("start 0; stop 0; set 0 1; start 1;", [3, 5], "ok 2 1 4.0.1 5.1.0"),
        ("set 0 1; start 0; start 4;", [3, 5], "ok 2 1 4.0.1 5.1.0"),
        // The outer one has found no child.
        ("start 0; stop 0; set 0 9; start 1;", [0, 5], "ok 1 0 4.0.1"),
    ];
    for (calls, chosen, answer) in cases {
        let held = choices(TWO_SWITCHES, calls);
        assert_eq!([held[1], held[4]], chosen, "{calls}");
        assert_eq!(last_answer(TWO_SWITCHES, &format!("{calls} key 0")), answer, "{calls}");
    }
}

// A switch whose child is a switch: a bind's start chooses too, and each has its own child on the
// path.
#[test]
fn switch_as_the_child_of_a_switch() {
    let text = "head 9; context 255; switch 0; switch 1; context 2; media 3 0; port 3 4; \
                default 1 2; default 2 3; link in 3 key 0";
    assert_eq!(run(text, "start 1; key 0")[1], "2 ok 2 1 4.0.1 5.0.0");
    assert_eq!(choices(text, "start 1"), [0, 2, 3, 0, 0]);
    // A start of the inner one is a direct start of the outer one's child.
    assert_eq!(run(text, "start 2; key 0")[1], "2 ok 1 0 4.0.1");
    assert_eq!(choices(text, "start 2"), [0, 0, 3, 0, 0]);
}

// "by a start of that switch": by a command, a port, a port of a port, a bind, a link.
#[test]
fn every_start_of_a_sleeping_switch_chooses() {
    assert_eq!(choices(VARIANTS, "start 1")[1], 2);
    assert_eq!(choices(VARIANTS, "start 0")[1], 2);
    assert_eq!(choices(TWO_SWITCHES, "start 0"), [0, 2, 0, 0, 5, 0, 0, 0, 0, 0]);
    assert_eq!(choices(TWO_SWITCHES, "start 2"), [0, 0, 0, 0, 5, 0, 0, 0, 0, 0]);
    let by_link = format!("{VARIANTS} link key 1; set 0 1; start 1");
    assert_eq!(choices(&by_link, "key 1")[1], 3);
    assert_eq!(last_answer(&by_link, "key 1; key 0"), LINK_1);
}

// "Starting the child directly ... leaves the choice", also a node further below.
#[test]
fn direct_start_of_a_child_leaves_the_choice() {
    for child in [3, 5] {
        let calls = format!("start 1; start {child};");
        assert_eq!(choices(VARIANTS, &calls), [0, 2, 0, 0, 0, 0]);
        assert_eq!(last_answer(VARIANTS, &format!("{calls} key 0")), LINK_0);
        // Also where the chosen child sleeps by now and the other one is shown alone.
        assert_eq!(last_answer(VARIANTS, &format!("{calls} stop 2; key 0")), LINK_0);
        // Also where there is no choice to leave.
        assert_eq!(choices(VARIANTS, &format!("start {child}")), [0; 6]);
        assert_eq!(last_answer(VARIANTS, &format!("start {child}; key 0")), NO_LINK);
    }
    let by_link = format!("{VARIANTS} link key 1; start 3");
    assert_eq!(last_answer(&by_link, "start 1; key 1; key 0"), LINK_0);
}

// "or a switch already awake, leaves the choice": occurring or paused, whatever the rules say now.
#[test]
fn start_of_an_awake_switch_leaves_the_choice() {
    for start in ["start 1", "start 0"] {
        for value in [0, 1, 9] {
            for before in ["", "pause 0;"] {
                let calls = format!("start 1; {before} set 0 {value}; {start};");
                assert_eq!(choices(VARIANTS, &calls)[1], 2, "{calls}");
                assert_eq!(last_answer(VARIANTS, &format!("{calls} key 0")), LINK_0, "{calls}");
            }
        }
    }
    // Awake by a direct start of its child, it has no choice and gets none.
    assert_eq!(choices(VARIANTS, "start 3; start 1; start 0")[1], 0);
    assert_eq!(last_answer(VARIANTS, "start 3; set 0 1; start 1; key 0"), NO_LINK);
}

// "A start that finds no child clears the choice"
#[test]
fn start_that_finds_no_child_clears_the_choice() {
    for start in ["start 1", "start 0"] {
        let calls = format!("start 1; stop 1; set 0 9; {start};");
        assert_eq!(choices(VARIANTS, &calls), [0; 6]);
        assert_eq!(last_answer(VARIANTS, &format!("{calls} key 0")), NO_LINK);
        // A rule that holds afterwards chooses nothing before the next start.
        assert_eq!(last_answer(VARIANTS, &format!("{calls} set 0 0; key 0")), NO_LINK);
        assert_eq!(last_answer(VARIANTS, &format!("{calls} set 0 1; start 1; key 0")), LINK_1);
    }
    let by_link = format!("{VARIANTS} link key 1; stop 1; set 0 9; start 1");
    assert_eq!(last_answer(&by_link, "start 1; key 1; key 0"), NO_LINK);
}

// "and a new session has none": neither a holding bind nor a default counts before a start.
#[test]
fn new_session_has_no_choice() {
    assert_eq!(choices(VARIANTS, ""), [0; 6]);
    assert_eq!(last_answer(VARIANTS, "key 0"), NO_LINK);
    let with_default = format!("{VARIANTS} default 1 3");
    assert_eq!(last_answer(&with_default, "set 0 9; key 0"), NO_LINK);
    assert_eq!(choices(&with_default, "set 0 9; tick; stop 0; pause 1"), [0; 6]);
}

// A default is chosen by the start that falls back on it.
#[test]
fn default_is_chosen_by_a_start() {
    let with_default = format!("{VARIANTS} default 1 3");
    assert_eq!(last_answer(&with_default, "set 0 9; start 1; key 0"), LINK_1);
    assert_eq!(last_answer(&with_default, "start 1; stop 1; set 0 9; key 0"), LINK_0);
    assert_eq!(last_answer(&with_default, "start 1; stop 1; set 0 9; start 1; key 0"), LINK_1);
}

// Nothing in the words ends a choice with the sleep of its switch: stop, abort, natural end, of the
// switch, its child, the media and the node above.
#[test]
fn choice_outlives_the_sleep_of_its_switch() {
    for action in ["stop", "abort"] {
        for node in [0, 1, 2, 4] {
            let calls = format!("start 1; {action} {node};");
            assert_eq!(choices(VARIANTS, &calls)[1], 2, "{calls}");
            assert_eq!(last_answer(VARIANTS, &format!("{calls} key 0")), LINK_0, "{calls}");
        }
    }
    let ending = VARIANTS.replacen("media 2 0", "media 2 1", 1);
    assert_eq!(
        run(&ending, "start 1; tick; key 0")[1..],
        ["2 ok 4 0 1.4.2 1.2.2 1.1.2 1.0.2", "3 ok 2 1 4.0.1 5.0.0"]
    );
    // Pause and resume leave it too.
    assert_eq!(last_answer(VARIANTS, "start 1; pause 1; key 0"), LINK_0);
    assert_eq!(last_answer(VARIANTS, "start 1; pause 1; resume 0; key 0"), LINK_0);
}

// A link of the chosen variant hears the start and the stop of its own switch.
#[test]
fn links_on_the_switch_above_them() {
    let text = format!(
        "{VARIANTS} link in 2 node 1 starts; link in 3 node 1 starts; \
         link in 2 node 1 stops; link in 3 node 1 stops"
    );
    assert_eq!(
        run(&text, "start 1; stop 1; set 0 1; start 1; abort 4; stop 0"),
        [
            "1 ok 5 1 1.4.1 1.2.1 1.1.1 1.0.1 5.2.0",
            "2 ok 5 1 1.4.2 1.2.2 1.1.2 1.0.2 5.4.0",
            "3 ok 2 0 3.0.1 3.0.2",
            "4 ok 5 1 1.5.1 1.3.1 1.1.1 1.0.1 5.3.0",
            "5 ok 0 0",
            "6 ok 5 1 1.5.2 1.3.2 1.1.2 1.0.2 5.5.0"
        ]
    );
}

// The choice of the moment counts: an earlier link of the same line has changed it. A link before
// that one has fired by the choice before.
#[test]
fn choice_at_the_moment_of_firing() {
    let change = "link key 1; set 0 1; stop 1; start 1;";
    let links = "link in 2 key 1; link in 3 key 1;";
    let text = format!("{VARIANTS} {links} {change} {links}");
    assert_eq!(
        run(&text, "start 1; key 1; key 1")[1..],
        [
            "2 ok 14 3 4.1.1 5.2.0 5.4.0 3.0.1 3.0.2 1.4.2 1.2.2 1.1.2 1.0.2 \
             1.5.1 1.3.1 1.1.1 1.0.1 5.6.0",
            "3 ok 14 3 4.1.1 5.3.0 5.4.0 3.0.1 3.0.2 1.5.2 1.3.2 1.1.2 1.0.2 \
             1.5.1 1.3.1 1.1.1 1.0.1 5.6.0"
        ]
    );
}

// The line of a start is taken when later actions of the same link have cleared the choice.
#[test]
fn choice_cleared_before_the_line_is_taken() {
    let text = format!(
        "{VARIANTS} link in 2 node 2 starts; link key 1; start 1; stop 1; set 0 9; start 1;"
    );
    assert_eq!(
        run(&text, "key 1; start 1; set 0 0; start 1"),
        [
            "1 ok 12 1 4.1.1 5.3.0 1.4.1 1.2.1 1.1.1 1.0.1 1.4.2 1.2.2 1.1.2 1.0.2 3.0.1 3.0.2",
            "2 ok 0 0",
            "3 ok 2 0 3.0.1 3.0.2",
            "4 ok 5 1 1.4.1 1.2.1 1.1.1 1.0.1 5.2.0"
        ]
    );
}

// The actions of a link that has fired all run, also those after the one that unchooses its owner.
#[test]
fn link_that_unchooses_its_owner() {
    let text =
        format!("{VARIANTS} property 0; link in 2 key 1; stop 1; set 0 1; start 1; set 1 5;");
    assert_eq!(
        run(&text, "start 1; key 1; key 1")[1..],
        [
            "2 ok 14 1 4.1.1 5.2.0 1.4.2 1.2.2 1.1.2 1.0.2 3.0.1 3.0.2 \
             1.5.1 1.3.1 1.1.1 1.0.1 3.1.1 3.1.2",
            "3 ok 1 0 4.1.1"
        ]
    );
}

// Guard and choice are both asked.
#[test]
fn guard_and_choice() {
    let text = format!("{VARIANTS} property 0; rule 1 eq 1; link in 2 key 1 guard 2;");
    assert_eq!(last_answer(&text, "key 1"), "ok 1 0 4.1.1");
    assert_eq!(last_answer(&text, "set 1 1; key 1"), "ok 1 0 4.1.1");
    assert_eq!(last_answer(&text, "start 1; key 1"), "ok 1 0 4.1.1");
    assert_eq!(last_answer(&text, "start 1; set 1 1; key 1"), "ok 2 1 4.1.1 5.2.0");
}

// "11 when a link would fire": one that is held back would not. Nor does it need room in the log.
#[test]
fn link_held_back_meets_neither_limit_nor_log() {
    let once = VARIANTS.replacen("head 9", "head 1", 1);
    let text = format!("{once} link key 0;");
    assert_eq!(last_answer(&text, "key 0"), "ok 2 1 4.0.1 5.2.0");
    assert_eq!(last_answer(&text, "start 1; key 0"), "no 11");
    let key_with = |calls: &str, length| session_after(&text, calls).key(0, &mut vec![0; length]);
    assert_eq!(key_with("", 8), Ok(1));
    assert_eq!(key_with("", 7), Err(Refusal::LogFull));
    assert_eq!(key_with("start 1", 8), Err(Refusal::FiringLimit));
    // It is held back after the limit is used up, too.
    let after = once.replacen("link in 2", "link key 0; link in 2", 1);
    assert_eq!(last_answer(&after, "key 0"), LINK_0);
    assert_eq!(last_answer(&after, "start 1; key 0"), "no 11");
}

// A refused call leaves the choices: the log is too short for a start that chooses, or the chain
// meets the limit after a link's start has chosen, or has cleared.
#[test]
fn refused_call_leaves_the_choices() {
    let mut session = session_after(VARIANTS, "start 1; stop 1; set 0 1");
    let before = session.clone();
    assert_eq!(session.command(1, 1, 0, &mut [0; 15]), Err(Refusal::LogFull));
    assert_eq!(session, before);
    assert_eq!(session.key(0, &mut [0; 8]), Ok(1));
    let looping = "link property 0 stops; set 0 1;";
    for value in [1, 9] {
        let text = format!("{VARIANTS} link key 1; stop 1; set 0 {value}; start 1; {looping}");
        assert_eq!(run(&text, "start 1; key 1; key 0")[1..], ["2 no 11", "3 ok 2 1 4.0.1 5.0.0"]);
        assert_eq!(choices(&text, "start 1; key 1")[1], 2);
    }
}

// A chosen child that wakes nothing is chosen all the same: a context without ports, and a switch
// that finds no child. The call logs nothing and the switch sleeps.
#[test]
fn chosen_child_that_wakes_nothing() {
    let text = "head 9; context 255; switch 0; context 1; default 1 2; link in 2 key 0";
    assert_eq!(run(text, "start 1; key 0"), ["1 ok 0 0", "2 ok 2 1 4.0.1 5.0.0"]);
    assert_eq!(choices(text, "start 1"), [0, 2, 0]);
    let text = "head 9; context 255; switch 0; switch 1; context 2; property 0; rule 0 eq 0; \
                default 1 2; bind 2 3 0; link in 3 key 0";
    assert_eq!(choices(text, "start 1"), [0, 2, 3, 0]);
    assert_eq!(choices(text, "start 1; set 0 1; start 1"), [0, 2, 0, 0]);
    assert_eq!(last_answer(text, "start 1; key 0"), LINK_0);
    assert_eq!(last_answer(text, "start 1; set 0 1; start 1; key 0"), NO_LINK);
    // Nothing wakes, so that each further start is one of a sleeping switch.
    assert_eq!(last_answer(text, "set 0 1; start 1; set 0 0; start 1; key 0"), LINK_0);
}

// "The session remembers the choice": also as written down, from call to call.
#[test]
fn written_session_remembers_the_choice() {
    let mut session = written_after(VARIANTS, "start 1; stop 1");
    session.nodes[1].choice = 3;
    let mut log = [0; 8];
    assert_eq!((session.key(0, &mut log), log), (Ok(1), [4, 0, 1, 0, 5, 1, 0, 0]));
    assert_eq!(session.nodes[1].choice, 3);
    session.nodes[1].choice = 0;
    assert_eq!(session.key(0, &mut log), Ok(0));
    assert_eq!(session.command(1, 1, 0, &mut [0; 16]), Ok(0));
    assert_eq!(session.nodes[1].choice, 2);
}

// Rules

#[test]
fn comparators_at_their_bounds() {
    let comparators = [
        (Comparator::Equal, [false, true, false]),
        (Comparator::NotEqual, [true, false, true]),
        (Comparator::Less, [true, false, false]),
        (Comparator::Greater, [false, false, true]),
        (Comparator::LessOrEqual, [true, true, false]),
        (Comparator::GreaterOrEqual, [false, true, true]),
    ];
    for (comparator, expected) in comparators {
        for value in [i32::MIN + 1, -1, 0, 1, i32::MAX - 1] {
            let held = [value - 1, value, value + 1].map(|left| comparator.holds(left, value));
            assert_eq!(held, expected);
        }
        assert_eq!(comparator.holds(i32::MIN, i32::MAX), expected[0]);
        assert_eq!(comparator.holds(i32::MAX, i32::MIN), expected[2]);
    }
}

// "the property's value stands on the left"; both operators over rules of either kind.
#[test]
fn composite_rules_as_guards() {
    let text = "head 9; context 255; property 0; rule 0 gt 2; rule 0 lt 5; and 0 1; or 0 1; \
                rule 0 eq 9; or 2 4; \
                link key 0 guard 2; link key 0 guard 3; link key 0 guard 5";
    assert_eq!(
        run(text, "set 0 2; key 0; set 0 3; key 0; set 0 9; key 0"),
        [
            "1 ok 2 0 3.0.1 3.0.2",
            "2 ok 2 1 4.0.1 5.1.0",
            "3 ok 2 0 3.0.1 3.0.2",
            "4 ok 4 3 4.0.1 5.0.0 5.1.0 5.2.0",
            "5 ok 2 0 3.0.1 3.0.2",
            "6 ok 3 2 4.0.1 5.1.0 5.2.0"
        ]
    );
}

// Each composite rule names the one before it twice; deciding each rule once keeps this short.
#[test]
fn composite_rules_that_double() {
    let mut text = "head 1; context 255; property 0; rule 0 eq 0;".to_owned();
    for rule in 0..31 {
        text.push_str(&format!("and {rule} {rule};"));
    }
    text.push_str("link key 0 guard 31");
    assert_eq!(run(&text, "key 0"), ["1 ok 2 1 4.0.1 5.0.0"]);
}

// Refusals of calls

// "9 action not 1 to 6, or value not 0 for 1 to 5; 10 no such target"; both come before 12.
#[test]
fn command_refusals_in_order() {
    let text = "head 1; context 255; media 0 0; property 0";
    let mut session = load(&document(text)).unwrap();
    let new = session.clone();
    let refused = [
        (0, 99, 0, Refusal::WrongArgument),
        (7, 0, 0, Refusal::WrongArgument),
        (255, 99, 5, Refusal::WrongArgument),
        (1, 99, 1, Refusal::WrongArgument),
        (5, 1, i32::MIN, Refusal::WrongArgument),
        (1, 2, 0, Refusal::NoSuchTarget),
        (5, 255, 0, Refusal::NoSuchTarget),
        (6, 1, 7, Refusal::NoSuchTarget),
        (6, 0, 7, Refusal::LogFull),
        (1, 1, 0, Refusal::LogFull),
    ];
    for (action, target, value, refusal) in refused {
        let mut log = [0xEE; 3];
        assert_eq!(session.command(action, target, value, &mut log), Err(refusal));
        assert_eq!(log, [0; 3]);
        assert_eq!(session, new);
    }
}

// "11 when a link would fire and the count already equals the limit"
#[test]
fn limit_is_used_up_before_a_refusal() {
    let links =
        |limit, number| format!("head {limit}; context 255; {}", "link key 0;".repeat(number));
    assert_eq!(run(&links(2, 2), "key 0"), ["1 ok 3 2 4.0.1 5.0.0 5.1.0"]);
    assert_eq!(run(&links(2, 3), "key 0"), ["1 no 11"]);
    let without_end = "head 255; context 255; property 0; link property 0 stops; set 0 0";
    assert_eq!(run(without_end, "set 0 0"), ["1 no 11"]);
}

// A link whose guard fails does not meet the limit.
#[test]
fn guarded_link_beyond_the_limit_is_no_refusal() {
    let text = "head 1; context 255; property 0; rule 0 eq 1; link key 0; link key 0 guard 0";
    assert_eq!(
        run(text, "key 0; set 0 1; key 0"),
        ["1 ok 2 1 4.0.1 5.0.0", "2 ok 2 0 3.0.1 3.0.2", "3 no 11"]
    );
}

// "it starts at 0 in each call"
#[test]
fn firings_are_counted_in_each_call() {
    let text = "head 1; context 255; link key 0";
    let expected = "ok 2 1 4.0.1 5.0.0";
    assert_eq!(run(text, "key 0; key 0"), [format!("1 {expected}"), format!("2 {expected}")]);
}

// "The one met first is given; a firing tests 11 before its line tests 12."
#[test]
fn limit_and_log_both_near() {
    let key_with = |text: &str, length| load(&document(text)).unwrap().key(0, &mut vec![0; length]);
    let one_firing = "head 1; context 255; link key 0; link key 0";
    assert_eq!(key_with(one_firing, 3), Err(Refusal::LogFull));
    assert_eq!(key_with(one_firing, 4), Err(Refusal::LogFull));
    assert_eq!(key_with(one_firing, 8), Err(Refusal::FiringLimit));
    assert_eq!(key_with(one_firing, 400), Err(Refusal::FiringLimit));
    let two_firings = "head 2; context 255; link key 0; link key 0";
    assert_eq!(key_with(two_firings, 8), Err(Refusal::LogFull));
    assert_eq!(key_with(two_firings, 11), Err(Refusal::LogFull));
    assert_eq!(key_with(two_firings, 12), Ok(2));
    // The lines of the first firing's action come before the second firing.
    let with_set = "head 1; context 255; property 0; link key 0; set 0 1; link key 0";
    assert_eq!(key_with(with_set, 12), Err(Refusal::LogFull));
    assert_eq!(key_with(with_set, 16), Err(Refusal::FiringLimit));
}

// A call without lines is accepted with an empty slice.
#[test]
fn empty_log() {
    let mut session = load(&document(TWO_MEDIA)).unwrap();
    let new = session.clone();
    assert_eq!(session.tick(&mut []), Ok(0));
    assert_eq!(session.command(2, 0, 0, &mut []), Ok(0));
    assert_eq!(session.key(0, &mut []), Err(Refusal::LogFull));
    assert_eq!(session.command(1, 0, 0, &mut []), Err(Refusal::LogFull));
    assert_eq!(session, new);
}

// A tick without lines still moves the clocks, whatever the slice.
#[test]
fn tick_without_lines_needs_no_log() {
    let mut session = written_after(TWO_MEDIA, "start 0");
    assert_eq!(session.tick(&mut [9; 3]), Ok(0));
    assert_eq!((session.nodes[1].clock, session.nodes[2].clock), (1, 1));
}

// "the slice holds the lines, then zeros to its end", also past the last whole group.
#[test]
fn slice_is_zero_after_its_lines() {
    for length in 12..20 {
        let mut session = load(&document(TWO_MEDIA)).unwrap();
        let mut log = vec![0xEE; length];
        assert_eq!(session.command(1, 0, 0, &mut log), Ok(0));
        assert_eq!(log[..12], [1, 1, 1, 0, 1, 2, 1, 0, 1, 0, 1, 0]);
        assert!(log[12..].iter().all(|&byte| byte == 0));
    }
}

// A refused tick moves no clock.
#[test]
fn refused_tick_changes_nothing() {
    let text = "head 9; context 255; media 0 0; media 0 1; port 0 1; port 0 2";
    let mut session = session_after(text, "start 0");
    let before = session.clone();
    assert_eq!(session.tick(&mut [1; 3]), Err(Refusal::LogFull));
    assert_eq!(session, before);
    assert_eq!(session.tick(&mut [1; 4]), Ok(0));
}

// Counts and reads

// "which wraps at 4,294,967,296", for media, anchor, composite and property.
#[test]
fn counts_wrap() {
    let mut session = written_after(&format!("{ANCHORED} property 5;"), "start 0");
    session.nodes[0].count = u32::MAX;
    session.nodes[1].count = u32::MAX;
    session.anchors[1].count = u32::MAX;
    session.anchors[2].count = u32::MAX - 1;
    session.properties[0].count = u32::MAX;
    assert_eq!(session.command(2, 0, 0, &mut [0; 64]), Ok(0));
    assert_eq!(session.command(6, 0, 5, &mut [0; 64]), Ok(0));
    let count = |class, id| session.read(class, id).unwrap().count;
    assert_eq!([count(1, 0), count(1, 1), count(2, 1), count(3, 0)], [0; 4]);
    assert_eq!(count(2, 2), u32::MAX);
}

// "Set logs starts, stores the value, logs stops (count plus one)", also for the same value.
#[test]
fn set_to_the_same_value() {
    let text = "head 1; context 255; property -7";
    assert_eq!(run(text, "set 0 -7"), ["1 ok 2 0 3.0.1 3.0.2"]);
    let reading = session_after(text, "set 0 -7").read(3, 0);
    assert_eq!(reading, Ok(Reading { state: State::Sleeping, value: -7, count: 1 }));
}

// "9 class not 1 to 3; 10 no such id. It returns state, value or 0, count."
#[test]
fn reads() {
    let session = session_after(&format!("{ANCHORED} property 5;"), "start 0; pause 0");
    let paused = Reading { state: State::Paused, value: 0, count: 0 };
    assert_eq!(session.read(1, 0), Ok(paused));
    assert_eq!(session.read(2, 1), Ok(paused));
    assert_eq!(session.read(2, 0), Ok(Reading { state: State::Sleeping, ..paused }));
    assert_eq!(session.read(3, 0), Ok(Reading { state: State::Sleeping, value: 5, count: 0 }));
    for class in [0, 4, 5, 255] {
        assert_eq!(session.read(class, 200), Err(Refusal::WrongArgument));
    }
    for (class, id) in [(1, 2), (2, 3), (3, 1), (3, 255)] {
        assert_eq!(session.read(class, id), Err(Refusal::NoSuchTarget));
    }
}

// The printed run

// "a wrong or cut script record prints `script` and ends the run"
#[test]
fn wrong_scripts() {
    let doc = document("head 1; context 255");
    assert_eq!(printed_run(&doc, &[]), "");
    assert_eq!(printed_run(&doc, &[0]), "script\n");
    assert_eq!(printed_run(&doc, &[3, 4, 3]), "1 ok 0 0\nscript\n");
    assert_eq!(printed_run(&doc, &[2]), "script\n");
    assert_eq!(printed_run(&doc, &[3, 1, 1, 0, 0, 0, 0]), "1 ok 0 0\nscript\n");
    assert_eq!(printed_run(&doc, &[2, 5, 3]), "1 ok 1 0 4.5.1\n2 ok 0 0\n");
}

// "or `no` and the refusal"; a refused call does not end the run.
#[test]
fn refused_calls_are_printed() {
    let printed = run("head 1; context 255", "command 9 0 0; start 3; set 0 0; tick");
    assert_eq!(printed, ["1 no 9", "2 no 10", "3 no 10", "4 ok 0 0"]);
}

// "A refused document prints `doc` and the number."
#[test]
fn refused_documents_are_printed() {
    assert_eq!(printed_run(&[], &[3, 3]), "doc 3\n");
    assert_eq!(printed_run(&[0, 1], &[77]), "doc 8\n");
}

// A log slice of 65,536 bytes has room for 16,384 lines.
#[test]
fn printed_run_can_fill_the_log() {
    let mut text = "head 255; context 255; ".to_owned();
    text.push_str(&"media 0 0;".repeat(63));
    (1..64).for_each(|child| text.push_str(&format!("port 0 {child};")));
    text.push_str("link node 0 starts; stop 0; start 0; link key 0; start 0; ");
    // Each firing of link 0 logs 129 lines, so the log is full before the limit is met.
    assert_eq!(run(&text, "key 0"), ["1 no 12"]);
}
