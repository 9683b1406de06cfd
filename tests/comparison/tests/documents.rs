//! Documents one by one: tables at their limits and one past, cuts, and every byte changed.

use comparison::compare::Both;
use comparison::runs::{times, Told};
use second_engine::document::{
    MOST_ACTIONS, MOST_ANCHORS, MOST_BINDS, MOST_LINKS, MOST_NODES, MOST_PROPERTIES, MOST_RULES,
};
use second_engine::generate;
use second_engine::random::Random;
use second_engine::record::Record;

/// The refusal that both engines give, or nothing if both load the document.
fn refusal(document: &[u8]) -> Option<u8> {
    let told = Told { document: document.to_vec(), ..Told::default() };
    match Both::load(document) {
        Ok(loaded) => loaded.err(),
        Err(difference) => panic!("{}", told.with(difference)),
    }
}

fn refusal_of(records: &[Record]) -> Option<u8> {
    refusal(&records.iter().flat_map(Record::bytes).collect::<Vec<u8>>())
}

/// A head, a context, a media in it, a switch in it, and a media in that.
fn start() -> Vec<Record> {
    vec![
        Record::Head { limit: 9 },
        Record::Node { node_type: 0, parent: 255, duration: 0 },
        Record::Node { node_type: 1, parent: 0, duration: 7 },
        Record::Node { node_type: 2, parent: 0, duration: 0 },
        Record::Node { node_type: 1, parent: 2, duration: 0 },
        Record::Property { value: 0 },
        Record::Rule { property: 0, comparator: 0, value: 0 },
        Record::Link { owner: 0, class: 4, subject: 1, transition: 1, guard: 255 },
    ]
}

// Each table: with the records that fill it, with one more, and with one more whose fields are
// wrong as well.
#[test]
fn tables_at_their_limits_and_one_past() {
    let link = Record::Link { owner: 0, class: 1, subject: 0, transition: 1, guard: 0 };
    let node = Record::Node { node_type: 1, parent: 0, duration: 0 };
    let composite = Record::CompositeRule { operator: 1, left: 0, right: 0 };
    let cases = [
        (MOST_NODES - 4, node, Record::Node { node_type: 9, parent: 200, duration: 0 }),
        (
            MOST_ANCHORS,
            Record::Anchor { media: 1, begin: 0, end: 7 },
            Record::Anchor { media: 99, begin: 3, end: 3 },
        ),
        (MOST_PROPERTIES - 1, Record::Property { value: -1 }, Record::Property { value: 5 }),
        (
            MOST_RULES - 1,
            Record::Rule { property: 0, comparator: 5, value: -7 },
            Record::Rule { property: 77, comparator: 6, value: 0 },
        ),
        (MOST_RULES - 1, composite, Record::CompositeRule { operator: 2, left: 50, right: 50 }),
        (
            MOST_BINDS,
            Record::Bind { switch: 2, child: 3, rule: 0 },
            Record::Bind { switch: 9, child: 9, rule: 9 },
        ),
        (
            MOST_LINKS - 1,
            link,
            Record::Link { owner: 9, class: 9, subject: 0, transition: 0, guard: 0 },
        ),
        (
            MOST_ACTIONS,
            Record::Action { action: 6, target: 0, value: 1 },
            Record::Action { action: 7, target: 0, value: 0 },
        ),
    ];
    for (most, right, wrong) in cases {
        let mut records = start();
        for added in 1..=most {
            records.push(right);
            assert_eq!(refusal_of(&records), None, "{right:?} {added}");
        }
        for last in [right, wrong] {
            let past = [&records[..], &[last]].concat();
            assert_eq!(refusal_of(&past), Some(4), "{last:?}");
        }
    }
}

// As many ports as there can be: 63.
#[test]
fn ports() {
    let mut records = start();
    records.resize(5, records[0]);
    for _ in 5..=MOST_NODES {
        records.push(Record::Node { node_type: 1, parent: 0, duration: 0 });
    }
    records.truncate(1 + MOST_NODES);
    for child in 1..MOST_NODES as u8 {
        if child != 3 {
            records.push(Record::Port { context: 0, child });
        }
        assert_eq!(refusal_of(&records), None);
        let again = Record::Port { context: 0, child };
        assert_eq!(refusal_of(&[&records[..], &[again]].concat()), Some(7));
    }
}

#[test]
fn every_short_document() {
    assert_eq!(refusal(&[]), Some(3));
    for first in 0..=255 {
        refusal(&[first]);
        for second in 0..=255 {
            refusal(&[first, second]);
            refusal(&[0, 1, first, second]);
        }
    }
}

#[test]
fn every_cut_and_every_byte_changed() {
    let mut changed = 0;
    for seed in 0..30 * times() {
        let document = generate::document(&mut Random::new(seed)).bytes;
        for cut in 0..document.len() {
            refusal(&document[..cut]);
        }
        if document.len() > 300 {
            continue;
        }
        for place in 0..document.len() {
            let mut bytes = document.clone();
            for value in 0..=255 {
                bytes[place] = value;
                refusal(&bytes);
                changed += 1;
            }
        }
    }
    println!("every byte changed: {changed} documents");
}
