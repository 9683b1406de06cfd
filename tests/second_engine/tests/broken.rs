//! Broken sessions, clause by clause of 01 and of Req 01, on the session as written down.

mod common;

use common::written_after;
use second_engine::written::{
    WrittenAction, WrittenAnchor, WrittenBind, WrittenLink, WrittenNode, WrittenPort,
    WrittenProperty, WrittenRule,
};
use second_engine::{Refusal, Session, WrittenSession};

/// Node 0 with media 1 (4 ticks), switch 2 with media 3 and 4, context 5 without children.
/// Media 1 is at clock 1 in anchor 0; media 3 is paused.
const DOCUMENT: &str = "head 9; context 255; media 0 4; switch 0; media 2 0; media 2 0; \
                        context 0; anchor 1 1 3; anchor 1 0 1; anchor 3 0 9; property 5; \
                        rule 0 eq 5; rule 0 lt 1; or 0 1; \
                        bind 2 3 2; default 2 4; port 0 1; port 0 2; \
                        link key 0 guard 0; set 0 6; start 5; link anchor 0 starts; resume 3";

fn whole() -> WrittenSession {
    let session = written_after(DOCUMENT, "start 0; tick; pause 3");
    assert!(!session.is_broken());
    session
}

/// Looks that the session is broken and that every operation says so and changes nothing.
fn assert_broken(change: impl Fn(&mut WrittenSession)) {
    let mut session = whole();
    change(&mut session);
    assert!(session.is_broken());
    let before = session.clone();
    let refused = Err(Refusal::BrokenSession);
    let mut log = [0xEE; 30];
    // 13 comes before 9 and 10.
    assert_eq!(session.command(99, 99, 99, &mut log), refused);
    assert_eq!(log, [0; 30]);
    log.fill(0xEE);
    assert_eq!(session.key(0, &mut log), refused);
    assert_eq!(log, [0; 30]);
    log.fill(0xEE);
    assert_eq!(session.tick(&mut log), refused);
    assert_eq!(log, [0; 30]);
    assert_eq!(session.tick(&mut []), refused);
    assert_eq!(session.read(99, 99).map(|_| 0), refused);
    assert_eq!(session.check_counts(99, 99).map(|_| 0), refused);
    assert_eq!(session.count_of(99, 99).map(|_| 0), refused);
    assert_eq!(session, before);
}

fn assert_whole(change: impl Fn(&mut WrittenSession)) {
    let mut session = whole();
    change(&mut session);
    let own = Session::try_from(&session).expect("a session that is not broken");
    assert_eq!(WrittenSession::from(&own), session);
}

#[test]
fn sessions_of_runs_are_whole() {
    assert_whole(|_| {});
    for calls in ["", "start 0", "start 0; tick; tick; tick; tick", "start 4; pause 0; tick"] {
        assert!(!written_after(DOCUMENT, calls).is_broken());
    }
    // A choice, changed and cleared.
    for calls in ["set 0 9; start 2; stop 2; set 0 5; start 2", "start 2; stop 0"] {
        assert!(!written_after(DOCUMENT, calls).is_broken());
    }
}

// "The session in a refused answer is the empty one: ... it is a broken one."
#[test]
fn empty_session() {
    assert_broken(|session| *session = WrittenSession::empty());
}

// "limit 1 to 255", "no node: 8"
#[test]
fn no_limit_and_no_node() {
    assert_broken(|session| session.limit = 0);
    assert_whole(|session| session.limit = 255);
    assert_broken(|session| {
        *session = WrittenSession::empty();
        session.limit = 1;
    });
}

// Each "at most": a count above the table's size.
#[test]
fn counts_above_the_tables() {
    assert_broken(|session| session.node_count = 65);
    assert_broken(|session| session.anchor_count = 129);
    assert_broken(|session| session.property_count = 33);
    assert_broken(|session| session.rule_count = 33);
    assert_broken(|session| session.bind_count = 65);
    assert_broken(|session| session.port_count = 65);
    assert_broken(|session| session.link_count = usize::MAX);
    assert_broken(|session| session.links[0].action_count = 9);
    assert_broken(|session| session.links[63].action_count = 9);
}

#[test]
fn nodes_against_load_rules() {
    assert_broken(|session| session.nodes[0].node_type = 2);
    assert_broken(|session| session.nodes[0].parent = 0);
    assert_broken(|session| session.nodes[0].duration = 1);
    assert_broken(|session| session.nodes[5].node_type = 3);
    assert_broken(|session| session.nodes[5].duration = 1);
    assert_broken(|session| session.nodes[5].parent = 5);
    assert_broken(|session| session.nodes[5].parent = 1);
    assert_broken(|session| session.nodes[5].parent = 255);
    assert_whole(|session| session.nodes[5].node_type = 2);
    assert_whole(|session| session.nodes[5].node_type = 1);
    assert_whole(|session| session.nodes[5].parent = 2);
}

#[test]
fn anchors_against_load_rules() {
    assert_broken(|session| session.anchors[1].media = 0);
    assert_broken(|session| session.anchors[1].media = 6);
    assert_broken(|session| session.anchors[1].begin = 1);
    assert_broken(|session| session.anchors[0].end = 5);
    assert_broken(|session| session.nodes[1].duration = 2);
    assert_whole(|session| session.anchors[0].end = 4);
    assert_whole(|session| session.nodes[1].duration = 3);
}

#[test]
fn rules_against_load_rules() {
    assert_broken(|session| session.rules[0].kind = 0);
    assert_broken(|session| session.rules[0].kind = 6);
    assert_broken(|session| session.rules[0].property = 1);
    assert_broken(|session| session.rules[0].comparator = 6);
    assert_broken(|session| session.rules[2].operator = 2);
    assert_broken(|session| session.rules[2].left = 2);
    assert_broken(|session| session.rules[2].right = 255);
    // A field that the rule's kind does not have.
    assert_broken(|session| session.rules[0].left = 1);
    assert_broken(|session| session.rules[2].value = 1);
    assert_whole(|session| session.rules[0].value = i32::MIN);
}

#[test]
fn binds_against_load_rules() {
    assert_broken(|session| session.binds[0].switch = 0);
    assert_broken(|session| session.binds[0].switch = 6);
    assert_broken(|session| session.binds[0].child = 1);
    assert_broken(|session| session.binds[0].child = 6);
    assert_broken(|session| session.binds[0].rule = 3);
    assert_broken(|session| session.binds[0].rule = 255);
    assert_whole(|session| session.binds[0].child = 4);
}

#[test]
fn ports_against_load_rules() {
    assert_broken(|session| session.ports[0].context = 2);
    assert_broken(|session| session.ports[0].context = 6);
    assert_broken(|session| session.ports[0].child = 2);
    assert_broken(|session| session.ports[0].child = 3);
    assert_broken(|session| session.ports[0].child = 0);
    assert_whole(|session| session.ports[0].child = 5);
}

#[test]
fn links_against_load_rules() {
    assert_broken(|session| session.links[0].owner = 2);
    assert_broken(|session| session.links[0].owner = 6);
    assert_broken(|session| session.links[0].class = 0);
    assert_broken(|session| session.links[0].class = 5);
    assert_broken(|session| session.links[0].transition = 2);
    assert_broken(|session| session.links[0].guard = 3);
    assert_broken(|session| session.links[1].subject = 3);
    assert_broken(|session| session.links[1].transition = 0);
    assert_broken(|session| session.links[1].transition = 6);
    assert_whole(|session| session.links[0].subject = 255);
    assert_whole(|session| session.links[1].transition = 5);
    assert_whole(|session| session.links[0].owner = 5);
}

#[test]
fn actions_against_load_rules() {
    assert_broken(|session| session.links[0].actions[0].action = 0);
    assert_broken(|session| session.links[0].actions[0].action = 7);
    assert_broken(|session| session.links[0].actions[0].target = 1);
    assert_broken(|session| session.links[0].actions[1].target = 6);
    assert_broken(|session| session.links[0].actions[1].value = 1);
    assert_whole(|session| session.links[0].actions[1].action = 5);
    assert_whole(|session| session.links[0].actions[0].value = i32::MAX);
}

// "non-zero entries past a table's end", the next one and the last.
#[test]
fn entries_past_the_end() {
    assert_broken(|session| session.nodes[6].count = 1);
    assert_broken(|session| session.nodes[6].state = 1);
    assert_broken(|session| session.nodes[6].choice = 1);
    assert_broken(|session| session.nodes[63] = WrittenNode { parent: 255, ..Default::default() });
    assert_broken(|session| session.anchors[3].count = 1);
    assert_broken(|session| session.anchors[127] = WrittenAnchor { end: 1, ..Default::default() });
    assert_broken(|session| session.properties[1].value = 1);
    assert_broken(|session| session.properties[31] = WrittenProperty { value: 0, count: 1 });
    assert_broken(|session| session.rules[3].kind = 4);
    assert_broken(|session| session.rules[31] = WrittenRule { value: -1, ..Default::default() });
    assert_broken(|session| session.binds[2].rule = 255);
    assert_broken(|session| session.binds[63] = WrittenBind { child: 1, ..Default::default() });
    assert_broken(|session| session.ports[2].child = 5);
    assert_broken(|session| session.ports[63] = WrittenPort { context: 1, child: 0 });
    assert_broken(|session| session.links[2].class = 4);
    assert_broken(|session| session.links[2].action_count = 1);
    assert_broken(|session| session.links[63] = WrittenLink { guard: 255, ..Default::default() });
    assert_broken(|session| session.links[0].actions[2].action = 1);
    assert_broken(|session| session.links[1].actions[7].value = 1);
    assert_broken(|session| session.links[40].actions[0].target = 1);
}

// A count that is too low leaves entries past the end; one too high takes in a zero entry, which
// may be a whole one.
#[test]
fn counts_that_do_not_fit_the_entries() {
    assert_broken(|session| session.node_count = 5);
    assert_broken(|session| session.anchor_count = 2);
    assert_broken(|session| session.property_count = 0);
    assert_broken(|session| session.rule_count = 2);
    assert_broken(|session| session.bind_count = 1);
    assert_broken(|session| session.port_count = 1);
    assert_broken(|session| session.link_count = 1);
    assert_broken(|session| session.links[0].action_count = 1);
    assert_broken(|session| session.anchor_count = 4);
    assert_broken(|session| session.rule_count = 4);
    assert_broken(|session| session.bind_count = 3);
    assert_broken(|session| session.port_count = 3);
    assert_broken(|session| session.link_count = 3);
    assert_broken(|session| session.links[0].action_count = 3);
    assert_whole(|session| session.property_count = 2);
    assert_whole(|session| session.node_count = 7);
    assert_whole(|session| {
        session.links[0].action_count = 1;
        session.links[0].actions[1] = WrittenAction::default();
    });
}

// "a state that is none of the three"
#[test]
fn states_that_are_none() {
    assert_broken(|session| session.nodes[1].state = 3);
    assert_broken(|session| session.nodes[4].state = 255);
    assert_broken(|session| session.nodes[5].state = 3);
    assert_broken(|session| session.anchors[1].state = 3);
}

// "a state that breaks demand 3's composite ... rule"
#[test]
fn composites_against_their_children() {
    assert_broken(|session| session.nodes[0].state = 0);
    assert_broken(|session| session.nodes[0].state = 2);
    assert_broken(|session| session.nodes[2].state = 0);
    assert_broken(|session| session.nodes[2].state = 1);
    assert_broken(|session| session.nodes[5].state = 1);
    assert_broken(|session| session.nodes[5].state = 2);
    assert_broken(|session| session.nodes[4].state = 1);
    // A paused child beside a paused one leaves the switch paused.
    assert_whole(|session| session.nodes[4].state = 2);
}

// "or anchor rule": awake exactly when media awake and begin ≤ clock < end, in its media's state.
#[test]
fn anchors_against_their_media() {
    assert_broken(|session| session.anchors[0].state = 0);
    assert_broken(|session| session.anchors[0].state = 2);
    assert_broken(|session| session.anchors[1].state = 1);
    assert_broken(|session| session.anchors[2].state = 1);
    assert_broken(|session| session.anchors[2].state = 0);
    // At clock = end the anchor has to sleep, at clock = begin it has to be awake.
    assert_broken(|session| session.nodes[1].clock = 3);
    assert_broken(|session| session.nodes[1].clock = 0);
    assert_whole(|session| session.nodes[1].clock = 2);
    assert_whole(|session| {
        session.nodes[1].clock = 3;
        session.anchors[0].state = 0;
    });
}

// "a composite or sleeping media with clock above 0, an awake media with clock ≥ its non-zero
// duration"
#[test]
fn clocks() {
    assert_broken(|session| session.nodes[0].clock = 1);
    assert_broken(|session| session.nodes[2].clock = 1);
    assert_broken(|session| session.nodes[5].clock = 65_535);
    assert_broken(|session| session.nodes[4].clock = 1);
    for clock in [4, 5, 65_535] {
        assert_broken(|session| {
            session.nodes[1].clock = clock;
            session.anchors[0].state = 0;
        });
    }
    // No duration: every clock will do.
    for clock in [9, 65_535] {
        assert_whole(|session| {
            session.nodes[3].clock = clock;
            session.anchors[2].state = 0;
        });
    }
}

/// Node 0 with switch 1 and media 6; in switch 1 context 2 and media 3, which has no bind; in
/// context 2 switch 4 with media 5. Switch 1 has chosen 2 and switch 4 has chosen 5, which is awake.
fn with_choices() -> WrittenSession {
    let text = "head 9; context 255; switch 0; context 1; media 1 0; switch 2; media 4 0; \
                media 0 0; port 0 1; port 2 4; default 1 2; default 4 5";
    let session = written_after(text, "start 0");
    let choices: Vec<u8> = session.nodes[..7].iter().map(|node| node.choice).collect();
    assert_eq!(choices, [0, 2, 0, 0, 5, 0, 0]);
    session
}

fn with_choice(place: usize, choice: u8) -> impl Fn(&mut WrittenSession) {
    move |session| {
        *session = with_choices();
        session.nodes[place].choice = choice;
    }
}

// "a choice that is no child of its switch": a node further below, beside it, itself, above it, or
// no node.
#[test]
fn choices_that_are_no_child() {
    for choice in [4, 5, 6, 1] {
        assert_broken(with_choice(1, choice));
    }
    for choice in [2, 1, 4, 3, 6] {
        assert_broken(with_choice(4, choice));
    }
    for choice in (7..=64).chain([127, 128, 254, 255]) {
        assert_broken(with_choice(1, choice));
        assert_broken(with_choice(4, choice));
    }
}

// "or is held for a node that is no switch": a context, also its own child, a media, no node. What
// is held for them is 0 in every session of a run.
#[test]
fn choices_for_no_switch() {
    for place in [0, 2, 3, 5, 6, 7, 8, 63] {
        assert_whole(with_choice(place, 0));
        for choice in (1..=7).chain([63, 64, 255]) {
            assert_broken(with_choice(place, choice));
        }
    }
}

// No choice and every child are whole, whatever is awake and bound.
#[test]
fn choices_that_are_whole() {
    for choice in [0, 2, 3] {
        assert_whole(with_choice(1, choice));
    }
    for choice in [0, 5] {
        assert_whole(with_choice(4, choice));
    }
    let sleeping = |choice: u8| {
        move |session: &mut WrittenSession| {
            *session = with_choices();
            session.command(2, 0, 0, &mut [0; 64]).unwrap();
            session.nodes[1].choice = choice;
        }
    };
    [0, 2, 3].into_iter().for_each(|choice| assert_whole(sleeping(choice)));
    [1, 4, 7].into_iter().for_each(|choice| assert_broken(sleeping(choice)));
}

// A table that is changed makes a choice broken, or a broken one whole.
#[test]
fn choices_with_changed_tables() {
    let moved = |choice: u8, parent: u8| {
        move |session: &mut WrittenSession| {
            *session = with_choices();
            session.nodes[1].choice = choice;
            session.nodes[3].parent = parent;
        }
    };
    for parent in [0, 2] {
        assert_whole(moved(2, parent));
        assert_broken(moved(3, parent));
    }
    assert_whole(moved(3, 1));
    let retyped = |node_type: u8, choice: u8| {
        move |session: &mut WrittenSession| {
            let text = "head 9; context 255; switch 0; media 1 0";
            *session = written_after(text, "");
            session.nodes[1].node_type = node_type;
            session.nodes[1].choice = choice;
        }
    };
    assert_whole(retyped(2, 2));
    assert_whole(retyped(0, 0));
    assert_broken(retyped(0, 2));
}

// Counts and values may be anything.
#[test]
fn counts_and_values() {
    assert_whole(|session| {
        session.nodes[0].count = u32::MAX;
        session.nodes[4].count = 7;
        session.anchors[1].count = u32::MAX;
        session.properties[0] = WrittenProperty { value: i32::MIN, count: u32::MAX };
    });
}
