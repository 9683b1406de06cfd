//! A notation for the documents and scripts of the tests: one record after the other, each ended
//! by a semicolon. It makes bytes by itself, without the engine's own records.
#![allow(dead_code)]

use second_engine::fields::Fields;
use second_engine::{load, printed_run, Call, Session, WrittenSession};

/// Bytes from hexadecimal digits.
pub fn hex(digits: &str) -> Vec<u8> {
    digits
        .split_whitespace()
        .map(|byte| u8::from_str_radix(byte, 16).expect("two hexadecimal digits"))
        .collect()
}

/// A document from records such as `head 2; context 255; media 0 3; anchor 1 1 2; property 0;
/// rule 0 lt 5; and 0 1; bind 1 2 0; default 1 2; port 0 1; link anchor 0 starts; set 0 1420`.
/// A link may end with a guard (`guard 0`); its owner is node 0, or the node named as in `link in 2
/// key 0`.
pub fn document(text: &str) -> Vec<u8> {
    records(text).iter().flat_map(|words| document_record(words)).collect()
}

/// A script from records such as `start 0; tick; key 5; set 0 -1; command 7 0 0`.
pub fn script(text: &str) -> Vec<u8> {
    records(text).iter().flat_map(|words| script_record(words)).collect()
}

/// The printed run of a document and a script in notation, one string for each line.
pub fn run(document_text: &str, script_text: &str) -> Vec<String> {
    let printed = printed_run(&document(document_text), &script(script_text));
    printed.lines().map(str::to_owned).collect()
}

/// The session after all calls, with ample log slices.
pub fn session_after(document_text: &str, script_text: &str) -> Session {
    let mut session = load(&document(document_text)).expect("the document loads");
    for call in calls_of(script_text) {
        // A refused call leaves the session as it is.
        let _ = session.call(call, &mut [0; 4_096]);
    }
    session
}

/// The calls of a script in notation.
pub fn calls_of(script_text: &str) -> Vec<Call> {
    let bytes = script(script_text);
    let mut fields = Fields::of(&bytes);
    let mut calls = Vec::new();
    while !fields.is_empty() {
        calls.push(Call::read(&mut fields).expect("a whole script"));
    }
    calls
}

pub fn written_after(document_text: &str, script_text: &str) -> WrittenSession {
    WrittenSession::from(&session_after(document_text, script_text))
}

fn records(text: &str) -> Vec<Vec<&str>> {
    text.split(';')
        .map(|record| record.split_whitespace().collect::<Vec<_>>())
        .filter(|words| !words.is_empty())
        .collect()
}

fn document_record(words: &[&str]) -> Vec<u8> {
    match words {
        ["head", limit] => vec![0, byte(limit)],
        ["context", parent] => vec![1, 0, byte(parent), 0, 0],
        ["media", parent, duration] => join(&[1, 1, byte(parent)], &[&word(duration)]),
        ["switch", parent] => vec![1, 2, byte(parent), 0, 0],
        ["anchor", media, begin, end] => join(&[2, byte(media)], &[&word(begin), &word(end)]),
        ["property", value] => join(&[3], &[&integer(value)]),
        ["rule", property, comparator, value] => {
            let comparator = place(&["eq", "ne", "lt", "gt", "lte", "gte"], comparator);
            join(&[4, byte(property), comparator], &[&integer(value)])
        }
        ["and", left, right] => vec![5, 0, byte(left), byte(right)],
        ["or", left, right] => vec![5, 1, byte(left), byte(right)],
        ["bind", switch, child, rule] => vec![6, byte(switch), byte(child), byte(rule)],
        ["default", switch, child] => vec![6, byte(switch), byte(child), 255],
        ["port", context, child] => vec![7, byte(context), byte(child)],
        ["link", "in", owner, event @ .., "guard", rule] => link(owner, event, rule),
        ["link", "in", owner, event @ ..] => link(owner, event, "255"),
        ["link", event @ .., "guard", rule] => link("0", event, rule),
        ["link", event @ ..] => link("0", event, "255"),
        _ => join(&[9], &[&action(words)]),
    }
}

fn link(owner: &str, event: &[&str], guard: &str) -> Vec<u8> {
    let (class, subject, transition) = match event {
        ["key", code] => (4, code, 1),
        [class, subject, transition] => {
            let names = ["starts", "stops", "aborts", "pauses", "resumes"];
            let class = 1 + place(&["node", "anchor", "property"], class);
            (class, subject, 1 + place(&names, transition))
        }
        _ => panic!("unknown event {event:?}"),
    };
    vec![8, byte(owner), class, byte(subject), transition, byte(guard)]
}

fn script_record(words: &[&str]) -> Vec<u8> {
    match words {
        ["tick"] => vec![3],
        ["key", code] => vec![2, byte(code)],
        ["command", action, target, value] => {
            join(&[1, byte(action), byte(target)], &[&integer(value)])
        }
        _ => join(&[1], &[&action(words)]),
    }
}

/// Action, target and value of a command or a link's action.
fn action(words: &[&str]) -> Vec<u8> {
    match words {
        ["set", property, value] => join(&[6, byte(property)], &[&integer(value)]),
        [name, node] => {
            let action = 1 + place(&["start", "stop", "abort", "pause", "resume"], name);
            vec![action, byte(node), 0, 0, 0, 0]
        }
        _ => panic!("unknown record {words:?}"),
    }
}

fn byte(text: &str) -> u8 {
    text.parse().expect("a byte")
}

fn word(text: &str) -> Vec<u8> {
    text.parse::<u16>().expect("a u16").to_le_bytes().to_vec()
}

fn integer(text: &str) -> Vec<u8> {
    text.parse::<i32>().expect("an i32").to_le_bytes().to_vec()
}

fn place(names: &[&str], name: &str) -> u8 {
    let place = names.iter().position(|known| *known == name);
    place.unwrap_or_else(|| panic!("unknown name {name}")) as u8
}

fn join(start: &[u8], fields: &[&[u8]]) -> Vec<u8> {
    [start, &fields.concat()].concat()
}
