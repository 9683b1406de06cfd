//! Documents and scripts made by hand.

use second_engine::document::{
    MOST_ACTIONS, MOST_ANCHORS, MOST_BINDS, MOST_LINKS, MOST_NODES, MOST_PROPERTIES, MOST_RULES,
};
use second_engine::record::Record;
use second_engine::Call;

pub const START: Call = Call::Command { action: 1, target: 0, value: 0 };
pub const STOP: Call = Call::Command { action: 2, target: 0, value: 0 };

pub fn document_of(records: &[Record]) -> Vec<u8> {
    records.iter().flat_map(Record::bytes).collect()
}

pub fn script_of(calls: &[Call]) -> Vec<u8> {
    calls.iter().flat_map(|call| call.bytes()).collect()
}

/// A context in place of node 0, after the head.
fn head_and_context(limit: u8) -> Vec<Record> {
    vec![Record::Head { limit }, Record::Node { node_type: 0, parent: 255, duration: 0 }]
}

/// A link without a guard.
fn link_on(class: u8, subject: u8, transition: u8) -> Record {
    Record::Link { owner: 0, class, subject, transition, guard: 255 }
}

/// Three media, one of them in a switch, with anchors and links; small, so that calls are quick.
pub fn small_report() -> Vec<u8> {
    let mut records = head_and_context(20);
    records.extend([
        Record::Node { node_type: 1, parent: 0, duration: 4 },
        Record::Node { node_type: 2, parent: 0, duration: 0 },
        Record::Node { node_type: 1, parent: 2, duration: 0 },
        Record::Node { node_type: 1, parent: 0, duration: 7 },
        Record::Port { context: 0, child: 1 },
        Record::Port { context: 0, child: 2 },
        Record::Port { context: 0, child: 4 },
        Record::Property { value: 0 },
        Record::Property { value: -1 },
        Record::Rule { property: 0, comparator: 5, value: 1 },
        Record::Bind { switch: 2, child: 3, rule: 255 },
        Record::Anchor { media: 1, begin: 1, end: 3 },
        Record::Anchor { media: 3, begin: 0, end: 9 },
        link_on(2, 0, 1),
        Record::Action { action: 6, target: 0, value: 2 },
        Record::Link { owner: 0, class: 1, subject: 4, transition: 2, guard: 0 },
        Record::Action { action: 1, target: 4, value: 0 },
        link_on(4, 1, 1),
        Record::Action { action: 4, target: 3, value: 0 },
    ]);
    document_of(&records)
}

/// The length of the longest document that loads. A bind needs a child of a switch, which can have
/// no port, so beside binds there are at most 62 ports.
pub const LONGEST: usize =
    2 + 64 * 5 + 128 * 6 + 32 * 5 + 32 * 7 + 64 * 4 + 62 * 3 + 64 * 6 + 64 * 8 * 7;

/// A document of that length, with its last record of this kind at the end.
pub fn longest_report(last: u8) -> Vec<u8> {
    let mut records = head_and_context(255);
    records.push(Record::Node { node_type: 2, parent: 0, duration: 0 });
    records.push(Record::Node { node_type: 1, parent: 1, duration: 0 });
    records.push(Record::Port { context: 0, child: 1 });
    for child in 3..MOST_NODES as u8 {
        let duration = 2 + u16::from(child % 5);
        records.push(Record::Node { node_type: 1, parent: 0, duration });
        records.push(Record::Port { context: 0, child });
    }
    for anchor in 0..MOST_ANCHORS as u16 {
        let media = 2 + (anchor % 62) as u8;
        records.push(Record::Anchor { media, begin: anchor % 2, end: 2 });
    }
    for value in 0..MOST_PROPERTIES as i32 {
        records.push(Record::Property { value });
    }
    // Nothing names the last property or the last rule, so that these may come late.
    for rule in 0..MOST_RULES as u8 {
        let (property, comparator, value) = (rule % 31, rule % 6, i32::from(rule) - 9);
        records.push(Record::Rule { property, comparator, value });
    }
    for bind in 0..MOST_BINDS as u8 {
        records.push(Record::Bind { switch: 1, child: 2, rule: bind % 31 });
    }
    for subject in 0..MOST_LINKS as u8 {
        let guard = subject % 31;
        records.push(Record::Link { owner: 0, class: 1, subject, transition: 2, guard });
        for action in 0..MOST_ACTIONS as u8 {
            records.push(match action % 3 {
                0 => Record::Action { action: 1 + subject % 5, target: 63 - subject, value: 0 },
                _ => Record::Action { action: 6, target: action, value: i32::from(subject) },
            });
        }
    }
    let place = records.iter().rposition(|record| record.bytes()[0] == last);
    let record = records.remove(place.expect("there are records of this kind"));
    records.push(record);
    document_of(&records)
}

/// A link on key 0 with so many actions, which are begun anew where they end.
fn link_with(actions: &[Record], number: usize) -> Vec<Record> {
    [link_on(4, 0, 1)].iter().chain(actions.iter().cycle().take(number)).copied().collect()
}

/// Key 0 logs so many lines, the last of them those of a start of all 63 media with 128 anchors,
/// and then stops them: a firing, anchors before each media, the context, 193 lines.
pub fn stop_after_lines(lines: usize) -> Vec<u8> {
    let mut records = head_and_context(255);
    records.push(Record::Property { value: 0 });
    for child in 1..MOST_NODES as u8 {
        records.push(Record::Node { node_type: 1, parent: 0, duration: 0 });
        records.push(Record::Port { context: 0, child });
    }
    for anchor in 0..MOST_ANCHORS as u8 {
        records.push(Record::Anchor { media: 1 + anchor % 63, begin: 0, end: 9 });
    }
    let start = Record::Action { action: 1, target: 0, value: 0 };
    let stop = Record::Action { action: 2, target: 0, value: 0 };
    let set = Record::Action { action: 6, target: 0, value: 7 };
    // Without the key's line and the start's.
    let mut left = lines - 1 - 193;
    while left > 0 {
        let (actions, number, logged) = match left {
            1_537.. => (&[start, stop][..], 8, 1 + 8 * 192),
            385.. => (&[start, stop][..], 2, 1 + 2 * 192),
            17.. => (&[set][..], 8, 1 + 8 * 2),
            _ if left % 2 == 1 => (&[set][..], left / 2, left),
            _ => (&[][..], 0, 1),
        };
        records.extend(link_with(actions, number));
        left -= logged;
    }
    records.extend(link_with(&[start], 1));
    records.extend(link_with(&[stop], 1));
    document_of(&records)
}

/// One link on key 0 sets property 0 eight times, and so many links hear each stop of it, with these
/// actions.
fn links_on_eight_sets(hearing: usize, actions: &[Record]) -> Vec<Record> {
    let mut records = link_with(&[Record::Action { action: 6, target: 0, value: 1 }], MOST_ACTIONS);
    for _ in 0..hearing {
        records.push(link_on(3, 0, 2));
        records.extend(actions);
    }
    records
}

/// Four starts and four stops of a node, by turns.
fn starts_and_stops(target: u8) -> [Record; MOST_ACTIONS] {
    [1, 2, 1, 2, 1, 2, 1, 2].map(|action| Record::Action { action, target, value: 0 })
}

/// The lines that key 0 logs in the report of many firings: the key's, the firings', two of each
/// set, and 7 of each start and stop.
pub const LINES_OF_MANY_FIRINGS: usize = 1 + 255 + 8 * 2 + 31 * 8 * 8 * 7;

/// Key 0 fires 255 times: one link sets a property 8 times, 31 links wait for that, 6 do nothing.
pub fn many_firings(limit: u8) -> Vec<u8> {
    let mut records = head_and_context(limit);
    records.push(Record::Node { node_type: 1, parent: 0, duration: 0 });
    records.push(Record::Property { value: 0 });
    records.extend([Record::Anchor { media: 1, begin: 0, end: 9 }; 5]);
    records.extend(links_on_eight_sets(31, &starts_and_stops(1)));
    records.extend([link_on(4, 0, 1); 6]);
    document_of(&records)
}

const MEDIA: u8 = 60;

/// The records up to the 60 media and 128 anchors: media 4 to 63 in three composites of context 0,
/// two of them contexts and one a switch. The duration is the media's, the anchors' begins and ends
/// are made from their number.
fn report(duration: impl Fn(u8) -> u16, times: impl Fn(u16) -> (u16, u16)) -> Vec<Record> {
    let mut records = head_and_context(255);
    records.extend([
        Record::Node { node_type: 0, parent: 0, duration: 0 },
        Record::Node { node_type: 0, parent: 0, duration: 0 },
        Record::Node { node_type: 2, parent: 0, duration: 0 },
    ]);
    for media in 0..MEDIA {
        let parent = if media == MEDIA - 1 { 3 } else { 1 + media % 2 };
        records.push(Record::Node { node_type: 1, parent, duration: duration(media) });
    }
    for composite in 1..=3 {
        records.push(Record::Port { context: 0, child: composite });
    }
    for media in 0..MEDIA - 1 {
        records.push(Record::Port { context: 1 + media % 2, child: 4 + media });
    }
    records.push(Record::Bind { switch: 3, child: 4 + MEDIA - 1, rule: 255 });
    for anchor in 0..128 {
        let (begin, end) = times(anchor);
        records.push(Record::Anchor { media: 4 + (anchor % 60) as u8, begin, end });
    }
    records
}

/// 64 links with guards: each media starts anew where it has ended, and keys set properties that
/// the guards read.
pub fn wide_report() -> Vec<u8> {
    let mut records = report(
        |media| 40 + u16::from(media),
        |anchor| {
            let begin = anchor / 60 * 10 + anchor % 7;
            (begin, begin + 5)
        },
    );
    for value in 0..32 {
        records.push(Record::Property { value });
    }
    for rule in 0..16 {
        records.push(Record::Rule { property: rule, comparator: 5, value: 0 });
    }
    for rule in 0..16 {
        records.push(Record::CompositeRule { operator: rule % 2, left: rule, right: 15 + rule });
    }
    for media in 0..MEDIA {
        let (subject, target) = (4 + media, 4 + media);
        let guard = 16 + media % 16;
        records.push(Record::Link { owner: 0, class: 1, subject, transition: 2, guard });
        records.push(Record::Action { action: 1, target, value: 0 });
    }
    for key in 0..4 {
        records.push(Record::Link { owner: 0, class: 4, subject: key, transition: 1, guard: 31 });
        records.push(Record::Action { action: 6, target: key, value: i32::from(key) });
        records.push(Record::Action { action: 6, target: 16 + key, value: -1 });
    }
    document_of(&records)
}

/// So many ticks, after every tenth a key, after every 25th a pause of a media or its resume.
pub fn wide_script(ticks: u32) -> Vec<u8> {
    let mut calls = vec![START];
    for tick in 1..=ticks {
        calls.push(Call::Tick);
        if tick % 10 == 0 {
            calls.push(Call::Key { code: (tick / 10 % 5) as u8 });
        }
        if tick % 25 == 0 {
            let action = if tick % 50 == 0 { 5 } else { 4 };
            calls.push(Call::Command {
                action,
                target: 4 + ((tick - 1) / 50 % 60) as u8,
                value: 0,
            });
        }
    }
    script_of(&calls)
}

/// Every anchor begins with its media.
pub fn start_stop_report() -> Vec<u8> {
    document_of(&report(|_| 0, |anchor| (0, 100 + anchor)))
}

/// So many starts and stops of node 0, by turns.
pub fn start_stop_script(times: usize) -> Vec<u8> {
    script_of(&[START, STOP]).repeat(times)
}

/// Media of a context, each started by a port.
fn media_with_ports(media: u8) -> Vec<Record> {
    let node = Record::Node { node_type: 1, parent: 0, duration: 0 };
    (1..=media).flat_map(|child| [node, Record::Port { context: 0, child }]).collect()
}

/// A simple rule that holds where the property has the value, and 31 composite rules, each of the
/// one before it, twice: rule 31 is 31 deep.
fn deep_rules(property: u8, value: i32) -> Vec<Record> {
    let composite = |rule| {
        let (operator, earlier) = (rule % 2, rule - 1);
        Record::CompositeRule { operator, left: earlier, right: earlier }
    };
    let mut records = vec![Record::Rule { property, comparator: 0, value }];
    records.extend((1..MOST_RULES as u8).map(composite));
    records
}

/// The firings of key 0 where 31 links hear eight sets.
pub const FIRINGS_ON_EIGHT_SETS: usize = 1 + 31 * 8;

/// The lines of the key, of these firings and of the eight sets.
const LINES_ON_EIGHT_SETS: usize = 1 + FIRINGS_ON_EIGHT_SETS + 8 * 2;

/// The actions of the links that hear: 1,984.
const ACTIONS_ON_EIGHT_SETS: usize = 31 * 8 * MOST_ACTIONS;

/// Key 0 starts a switch 1,984 times. All of its 64 binds are on a rule 31 deep that does not hold,
/// and it has no default, so nothing starts.
pub fn switch_starts() -> Vec<u8> {
    let mut records = head_and_context(255);
    records.push(Record::Node { node_type: 2, parent: 0, duration: 0 });
    records.push(Record::Node { node_type: 1, parent: 1, duration: 0 });
    records.extend([Record::Property { value: 0 }; 3]);
    records.extend(deep_rules(2, 1));
    records.extend([Record::Bind { switch: 1, child: 2, rule: 31 }; MOST_BINDS]);
    let start = Record::Action { action: 1, target: 1, value: 0 };
    records.extend(links_on_eight_sets(31, &[start; MOST_ACTIONS]));
    document_of(&records)
}

pub const LINES_OF_SWITCH_STARTS: usize = LINES_ON_EIGHT_SETS;

/// Key 0 sets property 1 1,984 times; 32 links hear each stop of it, with a guard 31 deep that does
/// not hold: 63,488 guards.
pub fn deep_guards() -> Vec<u8> {
    let mut records = head_and_context(255);
    records.extend([Record::Property { value: 0 }; 3]);
    records.extend(deep_rules(2, 1));
    let set = Record::Action { action: 6, target: 1, value: 1 };
    records.extend(links_on_eight_sets(31, &[set; MOST_ACTIONS]));
    let guarded = Record::Link { owner: 0, class: 3, subject: 1, transition: 2, guard: 31 };
    records.extend([guarded; 32]);
    document_of(&records)
}

pub const LINES_OF_DEEP_GUARDS: usize = LINES_ON_EIGHT_SETS + 2 * ACTIONS_ON_EIGHT_SETS;

/// Key 0 starts and stops a context of 63 media, 992 times each.
pub fn media_starts_and_stops(limit: u8) -> Vec<u8> {
    let mut records = head_and_context(limit);
    records.extend(media_with_ports(63));
    records.push(Record::Property { value: 0 });
    records.extend(links_on_eight_sets(31, &starts_and_stops(0)));
    document_of(&records)
}

/// Each start and each stop logs 63 media and the context.
pub const LINES_OF_MEDIA_STARTS_AND_STOPS: usize = LINES_ON_EIGHT_SETS + 64 * ACTIONS_ON_EIGHT_SETS;

/// What a report has, and how many times key 0 fires in it.
#[derive(Clone, Copy)]
pub struct Size {
    pub media: u8,
    pub anchors: u8,
    pub links: usize,
    pub firings: usize,
}

/// Every anchor begins with its media. Links that key 0 does not need hear key 1.
pub fn report_of_size(size: Size) -> Vec<u8> {
    let mut records = head_and_context(255);
    records.extend(media_with_ports(size.media));
    for anchor in 0..size.anchors {
        records.push(Record::Anchor { media: 1 + anchor % size.media, begin: 0, end: 9 });
    }
    records.push(Record::Property { value: 0 });
    let mut idle = size.links;
    if let Some(others) = size.firings.checked_sub(1) {
        let (hearing, on_key) = (others / 8, others % 8);
        records.extend(links_on_eight_sets(hearing, &[]));
        records.extend(vec![link_on(4, 0, 1); on_key]);
        idle -= 1 + hearing + on_key;
    }
    records.extend(vec![link_on(4, 1, 1); idle]);
    document_of(&records)
}

/// So many turns of a start of node 0, key 0 and a stop.
pub fn script_of_turns(turns: usize) -> Vec<u8> {
    script_of(&[START, Call::Key { code: 0 }, STOP]).repeat(turns)
}

/// The lines of one turn: twice the context, its media and their anchors, and those of key 0.
pub fn lines_of_turn(size: Size) -> usize {
    let sets = if size.firings > 0 { 8 * 2 } else { 0 };
    2 * (1 + usize::from(size.media) + usize::from(size.anchors)) + 1 + size.firings + sets
}
/// 63 composites in one another, of these types by turns, with a media in the innermost: its anchor
/// begins at once, and a link on its start sets a property. A switch finds its child by a rule that
/// is as deep as rules can be.
pub fn nested_report(types: [u8; 2]) -> Vec<u8> {
    let composites = (MOST_NODES - 1) as u8;
    let type_of = |node: u8| if node == 0 { 0 } else { types[usize::from(node % 2)] };
    let mut records = vec![Record::Head { limit: 255 }];
    for node in 0..composites {
        let parent = node.checked_sub(1).unwrap_or(255);
        records.push(Record::Node { node_type: type_of(node), parent, duration: 0 });
    }
    records.push(Record::Node { node_type: 1, parent: composites - 1, duration: 3 });
    records.push(Record::Anchor { media: composites, begin: 0, end: 2 });
    records.push(Record::Property { value: 7 });
    records.extend(deep_rules(0, 7));
    for node in 0..composites {
        records.push(match type_of(node) {
            0 => Record::Port { context: node, child: node + 1 },
            _ => Record::Bind { switch: node, child: node + 1, rule: 31 },
        });
    }
    records.push(link_on(2, 0, 1));
    records.push(Record::Action { action: 6, target: 0, value: 7 });
    document_of(&records)
}
