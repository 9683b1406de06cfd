//! Refusals of documents, worked out by hand, in the order that 01 gives within a record.

mod common;

use common::{document, hex};
use second_engine::{load, Refusal, WrittenSession};

fn refusal(bytes: &[u8]) -> u8 {
    let refusal = load(bytes).expect_err("a refused document");
    assert_eq!(WrittenSession::load(bytes), (WrittenSession::empty(), Err(refusal)));
    refusal.number()
}

fn refusal_of_hex(digits: &str) -> u8 {
    refusal(&hex(digits))
}

fn refusal_of(text: &str) -> u8 {
    refusal(&document(text))
}

fn loads(text: &str) -> bool {
    load(&document(text)).is_ok()
}

fn repeat(record: &str, times: usize) -> String {
    record.repeat(times)
}

/// Nodes 0 context, 1 media of 3 ticks, 2 switch, 3 media in the switch, 4 media without end;
/// one property and one rule.
const TABLES: &str = "head 5; context 255; media 0 3; switch 0; media 2 0; media 0 0; \
                      property 0; rule 0 eq 0;";

fn refusal_after_tables(digits: &str) -> u8 {
    refusal(&[document(TABLES), hex(digits)].concat())
}

#[test]
fn every_refusal_has_its_number() {
    let all = [
        Refusal::RecordCut,
        Refusal::UnknownKind,
        Refusal::WrongHead,
        Refusal::TableFull,
        Refusal::FieldOutsideValues,
        Refusal::UnknownId,
        Refusal::AgainstEarlier,
        Refusal::NoNode,
        Refusal::WrongArgument,
        Refusal::NoSuchTarget,
        Refusal::FiringLimit,
        Refusal::LogFull,
        Refusal::BrokenSession,
    ];
    let numbers: Vec<u8> = all.iter().map(|refusal| refusal.number()).collect();
    assert_eq!(numbers, (1..=13).collect::<Vec<u8>>());
}

// "No records: 3." "After the last record, no node: 8."
#[test]
fn no_records_and_no_node() {
    assert_eq!(refusal(&[]), 3);
    assert_eq!(refusal_of("head 1"), 8);
    assert_eq!(refusal_of("head 1; property 0; rule 0 eq 0; and 0 0; link key 0"), 6);
    assert_eq!(refusal_of("head 1; property 0; rule 0 eq 0; and 0 0"), 8);
}

// "2 kind above 9; 1 bytes end inside it": 2 is first, though such a record has no length.
#[test]
fn unknown_kind_before_cut() {
    assert_eq!(refusal_of_hex("0A"), 2);
    assert_eq!(refusal_of_hex("FF 00 00"), 2);
    assert_eq!(refusal_of_hex("00 01 0A"), 2);
}

// 1 comes before 3: a cut record in first place, a cut head elsewhere.
#[test]
fn cut_before_wrong_head() {
    assert_eq!(refusal_of_hex("00"), 1);
    assert_eq!(refusal_of_hex("01 00 FF 00"), 1);
    assert_eq!(refusal_of_hex("00 01 01 00 FF 00 00 00"), 1);
}

// "bytes end inside it", for the record of each kind, one byte short and with its kind alone.
#[test]
fn every_kind_cut() {
    let lengths = [1, 4, 5, 4, 6, 3, 3, 2, 5, 6];
    for (kind, length) in lengths.into_iter().enumerate() {
        for kept in 0..length {
            let record = [vec![kind as u8], vec![0; kept]].concat();
            assert_eq!(refusal(&[document(TABLES), record].concat()), 1, "kind {kind}");
        }
    }
}

// "3 not a head in first place, a head elsewhere, or limit 0"
#[test]
fn wrong_heads() {
    assert_eq!(refusal_of_hex("00 00"), 3);
    assert_eq!(refusal_of_hex("01 00 FF 00 00"), 3);
    assert_eq!(refusal_of_hex("03 00 00 00 00 00 01"), 3);
    assert_eq!(refusal_of_hex("00 01 00 01"), 3);
    assert_eq!(refusal_of_hex("00 01 00 00"), 3);
    // The first record decides before anything in it is looked at for 5 or 6.
    assert_eq!(refusal_of_hex("01 09 09 09 09"), 3);
    assert_eq!(refusal_of_hex("09 09 09 09 09 09 09"), 3);
}

// "The first faulty record decides": the later fault has the number that is earlier in the order.
#[test]
fn first_faulty_record_decides() {
    assert_eq!(refusal_of_hex("00 01 03 00 00 00 00 04 05 00 00 00 00 00 0A"), 6);
    assert_eq!(refusal_of_hex("00 01 01 01 FF 00 00 01"), 5);
    // A faulty record counts before the missing node does.
    assert_eq!(refusal_of_hex("00 01 03 00 00 00"), 1);
}

// "Node 0 is a context with parent 255"; "node 0's type and parent fall under 5".
#[test]
fn first_node() {
    assert_eq!(refusal_of_hex("00 01 01 01 FF 00 00"), 5);
    assert_eq!(refusal_of_hex("00 01 01 02 FF 00 00"), 5);
    assert_eq!(refusal_of_hex("00 01 01 03 FF 00 00"), 5);
    assert_eq!(refusal_of_hex("00 01 01 00 00 00 00"), 5);
    assert_eq!(refusal_of_hex("00 01 01 00 FE 00 00"), 5);
    assert_eq!(refusal_of_hex("00 01 01 00 FF 01 00"), 5);
    assert!(load(&hex("00 01 01 00 FF 00 00")).is_ok());
}

// "another node's parent is an earlier context or switch": 6 for 255, itself, a media.
#[test]
fn other_nodes() {
    assert_eq!(refusal_of("head 1; context 255; media 255 0"), 6);
    assert_eq!(refusal_of("head 1; context 255; context 255"), 6);
    assert_eq!(refusal_of("head 1; context 255; context 1"), 6);
    assert_eq!(refusal_of("head 1; context 255; media 0 0; media 1 0"), 6);
    assert!(loads("head 1; context 255; switch 0; context 1; switch 2; media 3 65535"));
}

// 5 before 6 in a node: type 3 or a duration of a composite, with a parent not given.
#[test]
fn node_fields_before_its_parent() {
    assert_eq!(refusal_of_hex("00 01 01 00 FF 00 00 01 03 09 00 00"), 5);
    assert_eq!(refusal_of_hex("00 01 01 00 FF 00 00 01 00 09 01 00"), 5);
    assert_eq!(refusal_of_hex("00 01 01 00 FF 00 00 01 02 00 00 01"), 5);
    assert_eq!(refusal_of_hex("00 01 01 00 FF 00 00 01 01 09 00 01"), 6);
}

// Anchor: 5 begin not below end, 6 no media, 7 end past duration, in this order.
#[test]
fn anchors() {
    assert_eq!(refusal_after_tables("02 09 02 00 02 00"), 5);
    assert_eq!(refusal_after_tables("02 01 04 00 03 00"), 5);
    assert_eq!(refusal_after_tables("02 09 00 00 09 00"), 6);
    assert_eq!(refusal_after_tables("02 00 00 00 09 00"), 6);
    assert_eq!(refusal_after_tables("02 02 00 00 09 00"), 6);
    assert_eq!(refusal_after_tables("02 01 00 00 04 00"), 7);
    assert!(loads(&format!("{TABLES} anchor 1 0 3; anchor 1 2 3; anchor 4 65534 65535")));
}

// Rule: 5 comparator above 5, before 6 property not given.
#[test]
fn rules() {
    assert_eq!(refusal_after_tables("04 09 06 00 00 00 00"), 5);
    assert_eq!(refusal_after_tables("04 01 05 00 00 00 00"), 6);
    assert_eq!(refusal_after_tables("04 FF 00 00 00 00 00"), 6);
}

// Composite rule: 5 operator above 1, before 6; "two earlier rules", so not itself nor 255.
#[test]
fn composite_rules() {
    assert_eq!(refusal_after_tables("05 02 09 09"), 5);
    assert_eq!(refusal_after_tables("05 00 01 00"), 6);
    assert_eq!(refusal_after_tables("05 01 00 01"), 6);
    assert_eq!(refusal_after_tables("05 01 FF 00"), 6);
    assert!(loads(&format!("{TABLES} and 0 0; or 0 1; and 1 2; rule 0 ne 0")));
}

// Bind: ids are 6 (switch of the wrong type, child or rule not given), before 7.
#[test]
fn binds() {
    assert_eq!(refusal_after_tables("06 00 01 FF"), 6);
    assert_eq!(refusal_after_tables("06 01 01 FF"), 6);
    assert_eq!(refusal_after_tables("06 05 03 FF"), 6);
    assert_eq!(refusal_after_tables("06 02 05 FF"), 6);
    assert_eq!(refusal_after_tables("06 02 FF FF"), 6);
    // No child of the switch, and a rule not given: 6 comes first.
    assert_eq!(refusal_after_tables("06 02 01 01"), 6);
    assert_eq!(refusal_after_tables("06 02 01 00"), 7);
    assert_eq!(refusal_after_tables("06 02 02 FF"), 7);
    assert_eq!(refusal_after_tables("06 02 00 FF"), 7);
    assert_eq!(refusal_after_tables("06 02 03 FF 06 02 03 FF"), 7);
    assert!(loads(&format!("{TABLES} bind 2 3 0; default 2 3; bind 2 3 0")));
}

// "one a switch": another switch has a default of its own.
#[test]
fn one_default_for_each_switch() {
    assert!(loads(
        "head 1; context 255; switch 0; switch 0; media 1 0; media 2 0; \
                   default 1 3; default 2 4"
    ));
}

// Port: 6 for a context not given or of another type or a child not given, then 7 for no child
// of the context and for the same pair twice.
#[test]
fn ports() {
    assert_eq!(refusal_after_tables("07 02 03"), 6);
    assert_eq!(refusal_after_tables("07 01 01"), 6);
    assert_eq!(refusal_after_tables("07 FF 00"), 6);
    assert_eq!(refusal_after_tables("07 00 05"), 6);
    assert_eq!(refusal_after_tables("07 00 03"), 7);
    assert_eq!(refusal_after_tables("07 00 00"), 7);
    assert_eq!(refusal_after_tables("07 00 01 07 00 01"), 7);
    assert!(loads(&format!("{TABLES} port 0 4; port 0 2; port 0 1")));
}

// Link: 5 class, 5 transition that the class may not name, before every id.
#[test]
fn link_fields() {
    for (class, last) in [(1, 5), (2, 5), (3, 2), (4, 1)] {
        for transition in [0, last + 1, 255] {
            let record = [8, 9, class, 255, transition, 77];
            assert_eq!(refusal(&[document(TABLES), record.to_vec()].concat()), 5);
        }
    }
    for class in [0, 5, 255] {
        let record = [8, 9, class, 0, 1, 255];
        assert_eq!(refusal(&[document(TABLES), record.to_vec()].concat()), 5);
    }
}

// Link: 6 owner that is no context, subject not given in its class, guard not given.
#[test]
fn link_ids() {
    assert_eq!(refusal_after_tables("08 01 01 00 01 FF"), 6);
    assert_eq!(refusal_after_tables("08 02 01 00 01 FF"), 6);
    assert_eq!(refusal_after_tables("08 05 01 00 01 FF"), 6);
    assert_eq!(refusal_after_tables("08 00 01 05 01 FF"), 6);
    assert_eq!(refusal_after_tables("08 00 02 00 01 FF"), 6);
    assert_eq!(refusal_after_tables("08 00 03 01 01 FF"), 6);
    assert_eq!(refusal_after_tables("08 00 04 00 01 01"), 6);
    assert!(loads(&format!("{TABLES} link key 255; link node 2 resumes guard 0")));
}

// Action: 5 action not 1 to 6 or a value with 1 to 5, before 6 no link or target not given.
#[test]
fn actions() {
    assert_eq!(refusal_after_tables("09 00 00 00 00 00 00"), 5);
    assert_eq!(refusal_after_tables("09 07 00 00 00 00 00"), 5);
    assert_eq!(refusal_after_tables("09 01 00 00 00 00 01"), 5);
    assert_eq!(refusal_after_tables("09 01 00 00 00 00 00"), 6);
    let link = "08 00 04 00 01 FF";
    assert_eq!(refusal_after_tables(&format!("{link} 09 05 09 01 00 00 00")), 5);
    assert_eq!(refusal_after_tables(&format!("{link} 09 05 05 00 00 00 00")), 6);
    assert_eq!(refusal_after_tables(&format!("{link} 09 06 01 00 00 00 00")), 6);
    assert!(loads(&format!("{TABLES} link key 0; set 0 -5; resume 4; property 0; set 1 0")));
}

// "belongs to the latest link, at most 8 each": a ninth is 4 even if its fields are wrong, and
// the next link has 8 of its own.
#[test]
fn ninth_action() {
    let eight = format!("{TABLES} link key 0; {}", repeat("start 0;", 8));
    assert!(loads(&eight));
    assert!(loads(&format!("{eight} link key 1; {}", repeat("stop 0;", 8))));
    assert_eq!(refusal(&[document(&eight), hex("09 07 FF 00 00 00 00")].concat()), 4);
    assert_eq!(refusal(&[document(&eight), hex("09 07 FF 00 00 00")].concat()), 1);
}

// "4 table full" comes before 5, 6 and 7: one past each table, with wrong fields.
#[test]
fn full_tables() {
    let nodes = format!("head 1; context 255; {}", repeat("media 0 0;", 63));
    assert!(loads(&nodes));
    assert_eq!(refusal(&[document(&nodes), hex("01 03 FF 01 00")].concat()), 4);

    let anchors = format!("head 1; context 255; media 0 0; {}", repeat("anchor 1 0 1;", 128));
    assert!(loads(&anchors));
    assert_eq!(refusal(&[document(&anchors), hex("02 09 05 00 01 00")].concat()), 4);

    let properties = format!("head 1; context 255; {}", repeat("property 7;", 32));
    assert!(loads(&properties));
    assert_eq!(refusal_of(&format!("{properties} property 7")), 4);

    let links = format!("head 1; context 255; {}", repeat("link key 0;", 64));
    assert!(loads(&links));
    assert_eq!(refusal(&[document(&links), hex("08 09 09 09 09 09")].concat()), 4);

    let binds = format!(
        "head 1; context 255; switch 0; media 1 0; property 0; rule 0 eq 0; {}",
        repeat("bind 1 2 0;", 64)
    );
    assert!(loads(&binds));
    assert_eq!(refusal(&[document(&binds), hex("06 09 09 09")].concat()), 4);
}

// "Kinds 4 and 5 share ids, at most 32."
#[test]
fn rules_of_both_kinds_share_one_table() {
    let rules = format!(
        "head 1; context 255; property 0; rule 0 eq 0; {} {}",
        repeat("and 0 0;", 15),
        repeat("rule 0 lt 0;", 16)
    );
    assert!(loads(&rules));
    assert_eq!(refusal(&[document(&rules), hex("04 09 09 00 00 00 00")].concat()), 4);
    assert_eq!(refusal(&[document(&rules), hex("05 09 09 09")].concat()), 4);
    assert!(loads(&format!("{rules} link key 0 guard 31")));
}

// "At most 64, no pair twice": 64 nodes have 63 pairs, so a 64th port is never a new pair.
#[test]
fn port_table_cannot_be_filled() {
    let mut text = format!("head 1; context 255; {}", repeat("media 0 0;", 63));
    for child in 1..64 {
        text.push_str(&format!("port 0 {child};"));
    }
    assert!(loads(&text));
    for child in 0..64 {
        assert_eq!(refusal_of(&format!("{text} port 0 {child}")), 7);
    }
    assert_eq!(refusal_of(&format!("{text} port 0 64")), 6);
}

// "Ids are one byte, given from 0 in order of appearance within each table": records of
// different tables may mix, but only what stands before counts.
#[test]
fn only_earlier_records_count() {
    assert!(loads(
        "head 1; property 1; rule 0 eq 1; context 255; link key 0 guard 0; media 0 0; \
                   start 1; anchor 1 0 1"
    ));
    assert_eq!(refusal_of("head 1; context 255; link node 1 starts; media 0 0"), 6);
    assert_eq!(refusal_of("head 1; link key 0; context 255"), 6);
    assert_eq!(refusal_of("head 1; context 255; link key 0; start 1; media 0 0"), 6);
}
