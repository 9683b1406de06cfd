//! Shown counts: the check of a document and the count of an anchor, worked out by hand from the
//! words of the definition; the two statements about the property's value, by hand and on generated
//! reports; documents for which a condition and the statements fail; and faults that the statements
//! find.

mod common;

use common::{calls_of, session_after, written_after};
use second_engine::check::ShownCounts;
use second_engine::count_reports::{CountReport, CHANGES};
use second_engine::counts::number_or_0;
use second_engine::generate;
use second_engine::random::Random;
use second_engine::{load, Call, Condition, Fault, Probe, Refusal, Session, State, WrittenSession};

/// Media 1 with anchor 0 from 2 to 3 and anchor 1 from 0 to 2, which touch; media 2 with anchor 2;
/// switch 3. Rule 0 holds for every value, rule 1 for none.
const FILM: &str = "head 20; context 255; media 0 4; media 0 0; switch 0; \
                    port 0 1; port 0 2; anchor 1 2 3; anchor 1 0 2; anchor 2 1 2; \
                    property 7; property 8; \
                    rule 0 gte -2147483648; rule 0 lt -2147483648;";

/// The links that show the counts of media 1 in property 0.
const COUNTS: &str = "link anchor 0 starts; set 0 130; link anchor 1 starts; set 0 120;";

fn film(links: &str) -> String {
    format!("{FILM} {links}")
}

fn film_with_counts(more: &str) -> String {
    format!("{FILM} {COUNTS} {more}")
}

/// The answer for a media and a property of the new session: the first condition that fails, or 0.
fn check_of(text: &str, media: u8, property: u8) -> Result<u8, Refusal> {
    session_after(text, "").check_counts(media, property).map(number_or_0)
}

/// The first condition that fails for media 1 and property 0, or 0.
fn check(text: &str) -> u8 {
    check_of(text, 1, 0).expect("media 1 and property 0 are there")
}

/// The number of the condition that fails, as an error, or the count.
fn count_of(text: &str, anchor: u8, property: u8) -> Result<Result<i32, u8>, Refusal> {
    let answer = session_after(text, "").count_of(anchor, property);
    answer.map(|count| count.map_err(Condition::number))
}

// The conditions

// "m has at least one anchor": asked first, whatever else fails.
#[test]
fn media_without_anchors() {
    let text = "head 1; context 255; media 0 0; property 0;";
    assert_eq!(check(text), 1);
    assert_eq!(check(&format!("{text} link key 0; set 0 1")), 1);
    // Anchors of media 2 are none of media 1.
    let text = format!("{text} media 0 0; anchor 2 0 1; link anchor 0 starts; set 0 1");
    assert_eq!((check(&text), check_of(&text, 2, 0)), (1, Ok(0)));
}

/// The check of two anchors of media 1, each with its link, in either order of ids.
fn check_of_two(anchors: &str) -> [u8; 2] {
    let (one, other) = anchors.split_once(", ").expect("two anchors");
    [(one, other), (other, one)].map(|(one, other)| {
        check(&small_film(&format!("anchor 1 {one}; anchor 1 {other};"), TWO_LINKS))
    })
}

// "of any two, one ends at or before the begin of the other"
#[test]
fn overlaps() {
    for apart in ["0 1, 1 2", "0 1, 2 3", "3 9, 0 3", "0 65534, 65534 65535"] {
        assert_eq!(check_of_two(apart), [0, 0], "{apart}");
    }
    let short =
        ["0 2, 1 2", "0 2, 1 3", "0 1, 0 1", "0 1, 0 9", "2 9, 0 3", "0 9, 4 5", "0 9, 8 9"];
    for overlapping in short.into_iter().chain(["0 65535, 65534 65535"]) {
        assert_eq!(check_of_two(overlapping), [2, 2], "{overlapping}");
    }
}

// "of any two": the first and the last of three.
#[test]
fn overlap_of_anchors_that_are_no_neighbours() {
    let links = format!("{COUNTS} link anchor 2 starts; set 0 140");
    let anchors = |last: &str| format!("anchor 1 0 3; anchor 1 7 8; anchor 1 {last};");
    let text = |last: &str| small_film(&anchors(last), &links);
    assert_eq!(check(&text("3 7")), 0);
    assert_eq!(check(&text("2 7")), 2);
    assert_eq!(check(&text("3 8")), 2);
}

// "for each anchor a of m exactly one link on its start ... sets p": none
#[test]
fn anchors_without_a_link() {
    assert_eq!(check(FILM), 3);
    assert_eq!(check(&film("link anchor 0 starts; set 0 130")), 3);
    assert_eq!(check(&film("link anchor 1 starts; set 0 120")), 3);
    // A link on the start that has no action, or sets another property, or acts on a node.
    for actions in ["", "set 1 120;", "start 0; stop 0;"] {
        let links = format!("link anchor 0 starts; set 0 130; link anchor 1 starts; {actions}");
        assert_eq!(check(&film(&links)), 3);
    }
}

// "exactly one": two, the second with the same count, with another, with a guard
#[test]
fn anchors_with_two_links() {
    for more in [
        "link anchor 0 starts; set 0 130",
        "link anchor 1 starts; set 0 121",
        "link anchor 1 starts guard 0; set 0 120",
        "link anchor 1 starts; start 2; set 0 120; set 0 120",
    ] {
        assert_eq!(check(&film_with_counts(more)), 3);
    }
}

// "(class 2, a, transition 1)": a link on anything else is none of an anchor's start.
#[test]
fn links_on_something_else() {
    for other in [
        "anchor 1 stops",
        "anchor 1 aborts",
        "anchor 1 pauses",
        "anchor 1 resumes",
        "anchor 2 starts",
        "node 1 starts",
        "property 1 starts",
        "key 1",
    ] {
        let links = format!("link anchor 0 starts; set 0 130; link {other}; set 0 120");
        assert_eq!(check(&film(&links)), 3, "{other}");
        // Beside the right links it is another action.
        assert_eq!(check(&film_with_counts(&format!("link {other}; set 0 120"))), 6, "{other}");
    }
}

// Links on the start that do not set the property are not asked.
#[test]
fn links_on_a_start_beside_the_count() {
    for more in [
        "link anchor 0 starts",
        "link anchor 0 starts guard 1; set 1 5; set 1 6",
        "link anchor 1 starts; pause 1; link anchor 1 starts; resume 1",
        "link property 0 starts; set 1 1; link node 1 starts guard 0; stop 2",
    ] {
        assert_eq!(check(&film_with_counts(more)), 0, "{more}");
    }
}

// "in exactly one of its actions": also the same value, also far apart
#[test]
fn property_set_twice_by_a_link() {
    for actions in
        ["set 0 120; set 0 120", "set 0 120; set 0 121", "set 0 1; start 2; set 1 9; set 0 1"]
    {
        let links = format!("link anchor 0 starts; set 0 130; link anchor 1 starts; {actions}");
        assert_eq!(check(&film(&links)), 4, "{actions}");
    }
    // Eight actions, one of which sets the property, in the first, a middle and the last place.
    for place in [0, 4, 7] {
        let mut actions = ["set 1 120"; 8];
        actions[place] = "set 0 120";
        let actions = actions.join(";");
        let links = format!("link anchor 0 starts; set 0 1; link anchor 1 starts; {actions}");
        assert_eq!(count_of(&film(&links), 1, 0), Ok(Ok(120)));
    }
}

// "it has no guard": also one that always holds
#[test]
fn guards() {
    for (one, other) in [("guard 0", ""), ("", "guard 0"), ("guard 1", ""), ("", "guard 1")] {
        let links = format!(
            "link anchor 0 starts {one}; set 0 130; link anchor 1 starts {other}; set 0 120"
        );
        assert_eq!(check(&film(&links)), 5);
    }
}

// "no other action of the document sets p", in any place among the links
#[test]
fn other_actions() {
    let other = "link key 9 guard 1; start 0; set 0 130;";
    assert_eq!(check(&film(&format!("{other} {COUNTS}"))), 6);
    assert_eq!(check(&film(&format!("{COUNTS} {other}"))), 6);
    assert_eq!(check(&film_with_counts("link key 9; set 1 130")), 0);
    // The counts of both media in one property: each is the other's other action.
    let both = film_with_counts("link anchor 2 starts; set 0 5");
    assert_eq!((check(&both), check_of(&both, 2, 0)), (6, Ok(6)));
    // Each in a property of its own.
    let both = film_with_counts("link anchor 2 starts; set 1 5");
    assert_eq!((check(&both), check_of(&both, 2, 1)), (0, Ok(0)));
    assert_eq!((check_of(&both, 1, 1), check_of(&both, 2, 0)), (Ok(3), Ok(3)));
    // One link shows the counts of one anchor in two properties.
    let text = "head 1; context 255; media 0 0; property 0; property 0; anchor 1 0 1; \
                link anchor 0 starts; set 0 5; set 1 6";
    assert_eq!((check_of(text, 1, 0), check_of(text, 1, 1)), (Ok(0), Ok(0)));
    assert_eq!((count_of(text, 0, 0), count_of(text, 0, 1)), (Ok(Ok(5)), Ok(Ok(6))));
}

// All fail from some condition on; with one after the other kept, the next one is named.
#[test]
fn conditions_in_their_order() {
    let start = "head 9; context 255; media 0 0; property 0; rule 0 eq 0; switch 0; context 2;";
    let overlap = "anchor 1 0 2; anchor 1 1 3; anchor 1 3 4;";
    let apart = "anchor 1 0 1; anchor 1 1 3; anchor 1 3 4;";
    // The third anchor has no link, or one in a switch, the second's sets twice, the first's has a
    // guard.
    let links = "link anchor 0 starts guard 0; set 0 1; link anchor 1 starts; set 0 2; set 0 2; \
                 link key 0; set 0 9;";
    let third = "link in 3 anchor 2 starts; set 0 3;";
    let once = links.replacen("set 0 2; set 0 2;", "set 0 2;", 1);
    let unguarded = once.replacen(" guard 0", "", 1);
    let alone = unguarded.replacen("link key 0; set 0 9;", "", 1);
    let outside = third.replacen("link in 3", "link", 1);
    let texts = [
        format!("{start} link key 0; set 0 9;"),
        format!("{start} {overlap} {links}"),
        format!("{start} {apart} {links}"),
        format!("{start} {apart} {links} {third}"),
        format!("{start} {apart} {once} {third}"),
        format!("{start} {apart} {unguarded} {third}"),
        format!("{start} {apart} {alone} {third}"),
        format!("{start} {apart} {alone} {outside}"),
    ];
    assert_eq!(texts.map(|text| check(&text)), [1, 2, 3, 4, 5, 6, 7, 0]);
}

/// Switch 4 with context 5, in it context 6, in it switch 7 with context 8; context 9 in node 0.
const SWITCHES: &str =
    "switch 0; context 4; context 5; switch 6; context 7; context 0; default 4 5; default 7 8;";

// "no switch lies above the owner of a count's link": one or more, near or far, of all links.
#[test]
fn owners_in_switches() {
    for (one, other, condition) in [
        (0, 0, 0),
        (9, 0, 0),
        (9, 9, 0),
        (5, 0, 7),
        (0, 5, 7),
        (6, 0, 7),
        (9, 6, 7),
        (0, 8, 7),
        (8, 5, 7),
    ] {
        let links = format!(
            "{SWITCHES} link in {one} anchor 0 starts; set 0 130; \
             link in {other} anchor 1 starts; set 0 120;"
        );
        let text = film(&links);
        assert_eq!(check(&text), condition, "{one} {other}");
        let counts = match condition {
            0 => [Ok(130), Ok(120)],
            _ => [Err(7), Err(7)],
        };
        assert_eq!([count_of(&text, 0, 0), count_of(&text, 1, 0)], counts.map(Ok), "{one} {other}");
    }
}

// Other links may be in switches, on the starts of the anchors too, and so may the media.
#[test]
fn other_links_and_the_media_in_switches() {
    for more in
        ["link in 5 anchor 0 starts; set 1 1", "link in 8 key 0; start 1", "link in 6 key 0"]
    {
        assert_eq!(check(&film_with_counts(&format!("{SWITCHES} {more}"))), 0, "{more}");
    }
    let text = "head 9; context 255; media 0 0; property 0; switch 0; context 2; media 3 0; \
                anchor 4 0 1; link anchor 0 starts; set 0 1";
    assert_eq!(check_of(text, 4, 0), Ok(0));
}

// A choice does not decide: the only child, chosen.
#[test]
fn chosen_owner_is_in_a_switch_all_the_same() {
    let links = "link in 5 anchor 0 starts; set 0 130; link anchor 1 starts; set 0 120";
    let text = film(&format!("{SWITCHES} {links}"));
    for calls in ["", "start 4", "start 0; start 4; tick; tick"] {
        let session = session_after(&text, calls);
        assert_eq!(session.check_counts(1, 0), Ok(Err(Condition::OutsideSwitches)));
        assert_eq!(session.count_of(1, 0), Ok(Err(Condition::OutsideSwitches)));
    }
}

/// Media 1 with anchors of one tick each, and a link for each of the first 64, the last one first.
fn film_with_anchors(number: usize) -> String {
    let mut text = String::from("head 255; context 255; media 0 0; property -1;");
    for anchor in 0..number {
        text += &format!("anchor 1 {anchor} {};", anchor + 1);
    }
    for anchor in (0..number.min(64)).rev() {
        text += &format!("link anchor {anchor} starts; set 0 {anchor};");
    }
    text
}

// As many anchors as there are links for them, with a pause in each, and one more.
#[test]
fn most_anchors() {
    let text = film_with_anchors(64);
    assert_eq!(check(&text), 0);
    assert_eq!(count_of(&text, 64, 0), Err(Refusal::NoSuchTarget));
    let mut film = ShownFilm::of(&text, 1, 0);
    film.run("start 1");
    for anchor in 0..64 {
        assert_eq!(count_of(&text, anchor, 0), Ok(Ok(anchor.into())));
        for calls in ["pause 1", "tick", "resume 1"] {
            film.run(calls);
            assert_eq!(film.clock_and_value(), (anchor.into(), anchor.into()));
        }
        film.run("tick");
    }
    assert_eq!(film.clock_and_value(), (64, 63));
    for number in [65, 128] {
        let text = film_with_anchors(number);
        assert_eq!(check(&text), 3);
        assert_eq!(count_of(&text, number as u8 - 1, 0), Ok(Err(3)));
        assert_eq!(count_of(&text, number as u8, 0), Err(Refusal::NoSuchTarget));
    }
}

// An anchor's count: any value; else the condition that fails for the anchor's media.
#[test]
fn counts_of_anchors() {
    assert_eq!(check(&film(COUNTS)), 0);
    assert_eq!(count_of(&film(COUNTS), 0, 0), Ok(Ok(130)));
    assert_eq!(count_of(&film(COUNTS), 1, 0), Ok(Ok(120)));
    let extremes = film(
        "link anchor 0 starts; set 0 -2147483648; link anchor 1 starts; start 2; set 0 2147483647",
    );
    assert_eq!(count_of(&extremes, 0, 0), Ok(Ok(i32::MIN)));
    assert_eq!(count_of(&extremes, 1, 0), Ok(Ok(i32::MAX)));
    // Equal counts, and one equal to the first value.
    let equal = film("link anchor 0 starts; set 0 7; link anchor 1 starts; set 0 7");
    assert_eq!((count_of(&equal, 0, 0), count_of(&equal, 1, 0)), (Ok(Ok(7)), Ok(Ok(7))));
    // Anchor 2 is of media 2, whose counts nothing shows.
    assert_eq!(count_of(&film(COUNTS), 2, 0), Ok(Err(3)));
    assert_eq!(count_of(&film(COUNTS), 0, 1), Ok(Err(3)));
    // Anchor 0 alone is as it should be, and its media is not.
    let guarded = film("link anchor 0 starts; set 0 130; link anchor 1 starts guard 0; set 0 120");
    assert_eq!((count_of(&guarded, 0, 0), count_of(&guarded, 1, 0)), (Ok(Err(5)), Ok(Err(5))));
    let twice = film("link anchor 0 starts; set 0 1; set 0 2; link anchor 1 starts; set 0 3");
    assert_eq!((count_of(&twice, 0, 0), count_of(&twice, 1, 0)), (Ok(Err(4)), Ok(Err(4))));
    assert_eq!(count_of(&film_with_counts("link key 0; set 0 1"), 1, 0), Ok(Err(6)));
    assert_eq!(count_of(&film_with_counts("anchor 1 2 4"), 0, 0), Ok(Err(2)));
}

// Refusals

// "10 no such id, or no media": nodes 0 and 3 are composites, there are nodes 0 to 3, anchors 0 to
// 2 and properties 0 and 1.
#[test]
fn refused_ids() {
    let text = film(COUNTS);
    for id in [0, 3, 4, 63, 64, 255] {
        assert_eq!(check_of(&text, id, 0), Err(Refusal::NoSuchTarget));
        assert_eq!(check_of(&text, id, 255), Err(Refusal::NoSuchTarget));
    }
    for property in [2, 31, 32, 255] {
        assert_eq!(check_of(&text, 1, property), Err(Refusal::NoSuchTarget));
    }
    for (anchor, property) in [(3, 0), (127, 0), (128, 0), (255, 1), (0, 2), (1, 255), (3, 2)] {
        assert_eq!(count_of(&text, anchor, property), Err(Refusal::NoSuchTarget));
    }
    assert_eq!(check_of(&text, 2, 1), Ok(3));
    let without_property = "head 1; context 255; media 0 0; anchor 1 0 1";
    assert_eq!(check_of(without_property, 1, 0), Err(Refusal::NoSuchTarget));
    assert_eq!(count_of(without_property, 0, 0), Err(Refusal::NoSuchTarget));
}

// "13 broken", before 10 and before every condition
#[test]
fn refused_broken_sessions() {
    let mut broken = written_after(&film(COUNTS), "start 0");
    assert_eq!(broken.check_counts(1, 0), Ok(Ok(())));
    broken.nodes[0].clock = 1;
    for session in [broken, WrittenSession::empty()] {
        for (id, property) in [(1, 0), (0, 0), (255, 255), (2, 0)] {
            assert_eq!(session.check_counts(id, property), Err(Refusal::BrokenSession));
            assert_eq!(session.count_of(id, property), Err(Refusal::BrokenSession));
        }
    }
}

// States, clocks, values and counts of a session do not decide.
#[test]
fn answers_are_the_same_in_every_session_of_a_document() {
    for calls in ["start 0", "start 0; tick; pause 1", "start 1; tick; tick; tick; tick; set 0 99"]
    {
        let mut written = written_after(&film(COUNTS), calls);
        written.properties[0].count = u32::MAX;
        assert_eq!(written.check_counts(1, 0), Ok(Ok(())));
        assert_eq!(written.check_counts(2, 0), Ok(Err(Condition::OneLink)));
        assert_eq!(written.count_of(0, 0), Ok(Ok(130)));
    }
}

// The statements, by hand

/// A session with the statements about a media and a property of it.
#[derive(Clone)]
struct ShownFilm {
    session: Session,
    media: u8,
    property: u8,
    shown: ShownCounts,
}

impl ShownFilm {
    /// Begins with the new session.
    fn new(session: Session, media: u8, property: u8) -> Self {
        let shown = ShownCounts::new(&WrittenSession::from(&session), media, property);
        ShownFilm { session, media, property, shown }
    }

    fn of(text: &str, media: u8, property: u8) -> Self {
        Self::new(session_after(text, ""), media, property)
    }

    /// Runs a call and joins its log if it is accepted.
    fn call(
        &mut self,
        call: Call,
        log_length: usize,
        fault: Option<Fault>,
    ) -> Result<usize, Refusal> {
        let mut log = vec![0; log_length];
        let mut probe = Probe { fault, ..Probe::default() };
        let answer = self.session.probed_call(call, &mut log, &mut probe);
        if answer.is_ok() {
            self.shown.join(&log);
        }
        answer
    }

    /// Looks at both statements about the session as it is.
    fn check(&self) -> Result<(), String> {
        self.shown.check(&WrittenSession::from(&self.session))
    }

    /// Runs all calls of the script, with both statements after each.
    fn run(&mut self, script_text: &str) {
        for call in calls_of(script_text) {
            let _ = self.call(call, 4_096, None);
            self.check().unwrap();
        }
    }

    fn anchors_at_clock(&self) -> Vec<u8> {
        self.shown.anchors_at_clock(&WrittenSession::from(&self.session))
    }

    /// The media's clock and the property's value.
    fn clock_and_value(&self) -> (u16, i32) {
        let value = self.session.read(3, self.property).unwrap().value;
        (WrittenSession::from(&self.session).nodes[usize::from(self.media)].clock, value)
    }
}

/// The value of property 0 after each call, with both statements about media 1 and property 0.
fn values(document_text: &str, script_text: &str) -> Vec<i32> {
    let mut film = ShownFilm::of(document_text, 1, 0);
    let value_after = |call| {
        let _ = film.call(call, 4_096, None);
        film.check().unwrap();
        film.clock_and_value().1
    };
    calls_of(script_text).into_iter().map(value_after).collect()
}

// The count stays from the anchor's start until the next one's, through pauses and past the end.
#[test]
fn pauses_do_not_shift_a_count() {
    let text = film(COUNTS);
    assert_eq!(values(&text, "tick; start 0; tick; tick; tick"), [7, 120, 120, 130, 130]);
    assert_eq!(
        values(&text, "start 0; tick; pause 1; tick; tick; resume 1; tick; pause 0; tick; stop 0"),
        [120, 120, 120, 120, 120, 120, 130, 130, 130, 130]
    );
    // A restart shows the first anchor's count again; an abort leaves the last one.
    assert_eq!(
        values(&text, "start 0; tick; tick; abort 1; tick; start 1; tick; tick; start 1"),
        [120, 120, 130, 130, 130, 120, 120, 130, 130]
    );
    // Media 1 stops by itself at its fourth tick.
    assert_eq!(values(&text, "start 1; tick; tick; tick; tick; start 1")[3..], [130, 130, 120]);
}

// A restart by a link in the tick in which an anchor starts: both starts are in one log, and the
// later one's count stays.
#[test]
fn restart_by_a_link() {
    let text = film_with_counts("link anchor 0 starts; stop 1; start 1");
    assert_eq!(check(&text), 0);
    let mut film = ShownFilm::of(&text, 1, 0);
    film.run("start 1; tick; tick");
    assert_eq!((film.shown.last_start, film.anchors_at_clock()), (Some(1), vec![1]));
    assert_eq!(film.clock_and_value(), (0, 120));
    film.run("tick; tick");
    assert_eq!(film.clock_and_value(), (0, 120));
}

// Lines are taken in their order: another media's anchor restarts the counted media in the tick in
// which its second anchor starts, whichever of the two media is first.
#[test]
fn lines_in_their_order() {
    for (counted, other) in [(1, 2), (2, 1)] {
        let text = format!(
            "head 9; context 255; media 0 0; media 0 0; property 0; \
             anchor {counted} 0 1; anchor {counted} 1 2; anchor {other} 1 2; \
             {TWO_LINKS} link anchor 2 starts; stop {counted}; start {counted}"
        );
        assert_eq!(check_of(&text, counted, 0), Ok(0));
        let mut film = ShownFilm::of(&text, counted, 0);
        film.run("start 1; start 2; tick");
        assert_eq!(film.clock_and_value(), (0, 10));
    }
}

// A start after 272 other lines: 16 links that set another property eight times.
#[test]
fn long_chains() {
    let mut text = String::from("head 255; context 255; media 0 0; property 0; property 0;");
    text += &format!("link key 0; {}", "set 1 5;".repeat(8)).repeat(16);
    text += "link key 0; start 1; anchor 1 0 1; link anchor 0 starts; set 0 10";
    assert_eq!(check(&text), 0);
    assert_eq!(values(&text, "key 0"), [10]);
}

// A refused call leaves the value before: the log is too short for the count, or the limit is
// reached after the link that sets it.
#[test]
fn refused_starts() {
    let mut film = ShownFilm::of(&film(COUNTS), 1, 0);
    film.run("start 0; tick");
    // Lines 2.1.2, 2.0.1, 2.2.2, 5.0.0, 3.0.1, 3.0.2.
    for (length, answer, value) in [(23, Err(Refusal::LogFull), 120), (24, Ok(1), 130)] {
        assert_eq!(film.call(Call::Tick, length, None), answer);
        film.check().unwrap();
        assert_eq!(film.clock_and_value().1, value);
    }
    let text = film_with_counts("link anchor 0 starts; set 1 1; link property 1 starts; set 1 1");
    assert_eq!(check(&text), 0);
    let mut film = ShownFilm::of(&text, 1, 0);
    film.run("start 1; tick");
    assert_eq!(film.call(Call::Tick, 4_096, None), Err(Refusal::FiringLimit));
    film.check().unwrap();
    assert_eq!(film.clock_and_value(), (1, 120));
}

// Media 1 shows counts in property 0 and media 2 in property 1; both anchors of media 1 have equal
// counts.
#[test]
fn two_pairs_and_equal_counts() {
    let text = film(
        "link anchor 0 starts; set 0 9; link anchor 1 starts; set 0 9; \
         link anchor 2 starts; set 1 5",
    );
    assert_eq!((check(&text), check_of(&text, 2, 1)), (0, Ok(0)));
    let calls = ["start 0", "tick", "pause 0; tick; resume 0; tick"];
    for (media, property, expected) in [(1, 0, [9, 9, 9]), (2, 1, [8, 5, 5])] {
        let mut film = ShownFilm::of(&text, media, property);
        for (calls, value) in calls.into_iter().zip(expected) {
            film.run(calls);
            assert_eq!(film.clock_and_value().1, value);
        }
    }
}

// The last clock of all: an anchor ends there and the clock stays.
#[test]
fn last_clock() {
    let text = "head 1; context 255; media 0 0; property 0; anchor 1 65533 65534; \
                anchor 1 65534 65535; anchor 1 0 1; link anchor 0 starts; set 0 1; \
                link anchor 1 starts; set 0 2; link anchor 2 starts; set 0 3";
    assert_eq!(check(text), 0);
    let mut film = ShownFilm::of(text, 1, 0);
    film.run("start 1");
    for _ in 0..65_531 {
        film.call(Call::Tick, 64, None).unwrap();
    }
    let last = [
        (vec![], (65_532, 3)),
        (vec![0], (65_533, 1)),
        (vec![1], (65_534, 2)),
        (vec![], (65_535, 2)),
        (vec![], (65_535, 2)),
        (vec![], (65_535, 2)),
    ];
    for expected in last {
        film.run("tick");
        assert_eq!((film.anchors_at_clock(), film.clock_and_value()), expected);
    }
}

// Limits: without a condition, or with an accepted command that sets the property, the statements
// fail. Without condition 1 they hold, for both are about anchors.

/// The first condition that fails, or 0, and whether the first and the second statement about media
/// 1 and property 0 hold after the calls. One of the two that fails is enough for `check` to fail.
fn statements(document_text: &str, script_text: &str) -> (u8, bool, bool) {
    let mut film = ShownFilm::of(document_text, 1, 0);
    for call in calls_of(script_text) {
        let _ = film.call(call, 1_024, None);
    }
    let written = WrittenSession::from(&film.session);
    let first = film.shown.check_last_start(&written).is_ok();
    let second = film.shown.check_clock(&written).is_ok();
    assert_eq!(film.check().is_ok(), first && second);
    (check(document_text), first, second)
}

/// Media 1 with some anchors, counts in property 0, and a rule that holds for no value.
fn small_film(anchors: &str, links: &str) -> String {
    format!("head 9; context 255; media 0 0; {anchors} property 0; rule 0 lt -2147483648; {links}")
}

fn film_of_two(links: &str) -> String {
    small_film("anchor 1 0 2; anchor 1 2 4;", links)
}

const TWO_LINKS: &str = "link anchor 0 starts; set 0 10; link anchor 1 starts; set 0 20;";

#[test]
fn statements_hold_for_the_small_film_and_without_anchors() {
    for calls in ["", "start 1", "start 1; tick; pause 1; tick", "start 1; tick; tick", "key 0"] {
        assert_eq!(statements(&film_of_two(TWO_LINKS), calls), (0, true, true));
        assert_eq!(statements(&small_film("", ""), calls), (1, true, true));
    }
}

// Without condition 2: anchor 1 is inside anchor 0, and its count stays when it ends. An overlap of
// one tick is enough.
#[test]
fn an_overlap_shows_another_count() {
    let text = small_film("anchor 1 0 3; anchor 1 1 2;", TWO_LINKS);
    assert_eq!(statements(&text, "start 1; tick; tick"), (2, true, false));
    let text = small_film("anchor 1 0 2; anchor 1 1 3;", TWO_LINKS);
    assert_eq!(statements(&text, "start 1; tick"), (2, true, false));
}

// Without condition 3: no link for the second anchor; or a second link on the first one's start,
// whose value comes after the first link's.
#[test]
fn no_link_and_two_links_show_another_count() {
    let text = film_of_two("link anchor 0 starts; set 0 10");
    assert_eq!(statements(&text, "start 1; tick; tick"), (3, false, false));
    let text = film_of_two(&format!("{TWO_LINKS} link anchor 0 starts; set 0 11"));
    assert_eq!(statements(&text, "start 1"), (3, false, false));
}

// Without condition 4: the value is the later action's.
#[test]
fn two_actions_show_another_count() {
    let text =
        film_of_two("link anchor 0 starts; set 0 10; set 0 11; link anchor 1 starts; set 0 20");
    assert_eq!(statements(&text, "start 1"), (4, false, false));
}

// Without condition 5: the guard does not hold.
#[test]
fn a_guard_leaves_the_count_before() {
    let text =
        film_of_two("link anchor 0 starts; set 0 10; link anchor 1 starts guard 0; set 0 20");
    assert_eq!(statements(&text, "start 1; tick; tick"), (5, false, false));
}

// Without condition 6: a key sets the property.
#[test]
fn another_action_changes_a_count() {
    let text = film_of_two(&format!("{TWO_LINKS} link key 0; set 0 30"));
    assert_eq!(statements(&text, "start 1; key 0"), (6, false, false));
    assert_eq!(statements(&text, "key 0"), (6, false, true));
}

// Without condition 7: the switch above the second anchor's owner has not been started, or has
// chosen its other child. Once it has chosen the owner, both statements hold.
#[test]
fn a_switch_leaves_the_count_before() {
    let links = "switch 0; context 2; context 2; property 0; rule 1 eq 1; bind 2 4 1; \
                 default 2 3; link anchor 0 starts; set 0 10; \
                 link in 3 anchor 1 starts; set 0 20";
    let text = film_of_two(links);
    assert_eq!(statements(&text, "start 1; tick; tick"), (7, false, false));
    assert_eq!(statements(&text, "set 1 1; start 2; start 1; tick; tick"), (7, false, false));
    assert_eq!(statements(&text, "start 2; start 1; tick; tick"), (7, true, true));
}

// An accepted command that sets the property; a refused one changes nothing.
#[test]
fn a_set_command_changes_a_count() {
    let text = film_of_two(TWO_LINKS);
    assert_eq!(statements(&text, "start 1; set 0 30"), (0, false, false));
    assert_eq!(statements(&text, "start 1; set 0 30; tick; tick"), (0, true, true));
    assert_eq!(statements(&text, "start 1; set 1 30; command 7 0 30"), (0, true, true));
}

// The statements, on generated reports

/// How often each case of the statements was met.
#[derive(Debug, Default)]
struct Met {
    refused: usize,
    refused_sets: usize,
    /// Accepted commands that set the property, which were left out of the list.
    left_out: usize,
    first_value: usize,
    last_start: usize,
    occurring: usize,
    paused: usize,
}

/// Runs the calls with both statements after each, but leaves out the accepted commands that set
/// the property.
fn run_statements(
    random: &mut Random,
    film: &mut ShownFilm,
    calls: &[Call],
    fault: Option<Fault>,
    met: &mut Met,
) -> Result<(), String> {
    film.check()?;
    for &call in calls {
        let log_length = generate::log_length(random);
        let property = film.property;
        let is_set = matches!(call, Call::Command { action: 6, target, .. } if target == property);
        if is_set && film.clone().call(call, log_length, fault).is_ok() {
            met.left_out += 1;
            continue;
        }
        if film.call(call, log_length, fault).is_err() {
            met.refused += 1;
            met.refused_sets += usize::from(is_set);
        }
        film.check()?;
        match film.shown.last_start {
            Some(_) => met.last_start += 1,
            None => met.first_value += 1,
        }
        if !film.anchors_at_clock().is_empty() {
            match film.session.read(1, film.media).unwrap().state {
                State::Paused => met.paused += 1,
                _ => met.occurring += 1,
            }
        }
    }
    Ok(())
}

/// Runs calls on a report that was changed without effect on its counts.
fn run_report(seed: u64, fault: Option<Fault>, met: &mut Met) -> Result<(), String> {
    let mut random = Random::new(seed);
    let mut report = CountReport::new(&mut random);
    for change in CHANGES.iter().filter(|change| change.condition == 0) {
        if random.one_in(4) {
            report.change(&mut random, change);
        }
    }
    assert_eq!(check_report(&report), 0, "seed {seed}");
    let session = load(&report.bytes()).expect("a report loads");
    let mut film = ShownFilm::new(session, report.media, report.property);
    let calls = report.calls(&mut random, 60);
    run_statements(&mut random, &mut film, &calls, fault, met)
}

#[test]
fn statements_hold_on_generated_reports() {
    let mut met = Met::default();
    for seed in 0..4_000 {
        run_report(seed, None, &mut met).unwrap();
    }
    println!("generated reports: {met:?}");
    assert!(met.refused > 1_000 && met.refused_sets > 100 && met.left_out > 100);
    assert!(met.first_value > 1_000 && met.last_start > 10_000);
    assert!(met.occurring > 10_000 && met.paused > 1_000);
}

// The statements alone find each fault, planted in the engine's run.
#[test]
fn statements_find_planted_faults() {
    for fault in Fault::AGAINST_COUNTS {
        let is_found = |&seed: &u64| run_report(seed, Some(fault), &mut Met::default()).is_err();
        let found = (0..1_000).filter(is_found).count();
        println!("{fault:?}: found in {found} of 1000 runs");
        assert!(found > 0, "{fault:?} is not found");
    }
}

// Documents that were not made for it, as far as the check says that they show counts.
#[test]
fn statements_hold_on_generated_documents_that_show_counts() {
    let mut met = Met::default();
    let mut pairs = 0;
    for seed in 0..6_000 {
        let mut random = Random::new(seed);
        let document = generate::document(&mut random);
        let Ok(session) = load(&document.bytes) else {
            continue;
        };
        for (media, property) in pairs_that_show_counts(&session) {
            for _ in 0..30 {
                let calls = generate::calls(&mut random, &document, 30);
                let mut film = ShownFilm::new(session.clone(), media, property);
                run_statements(&mut random, &mut film, &calls, None, &mut met).unwrap();
            }
            pairs += 1;
        }
    }
    println!("generated documents: {pairs} pairs, {met:?}");
    assert!(pairs > 0 && met.occurring > 0 && met.paused > 0);
}

fn pairs_that_show_counts(session: &Session) -> Vec<(u8, u8)> {
    let pairs = (0..64).flat_map(|media| (0..32).map(move |property| (media, property)));
    pairs.filter(|&(media, property)| session.check_counts(media, property) == Ok(Ok(()))).collect()
}

// The check, on generated reports

/// The answer of both forms of the session about the report's media and property, and the counts.
fn check_report(report: &CountReport) -> u8 {
    let session = load(&report.bytes()).expect("a report loads");
    let answer = session.check_counts(report.media, report.property);
    let written = WrittenSession::from(&session);
    assert_eq!(written.check_counts(report.media, report.property), answer);
    let answer = answer.expect("media and property are there");
    for &(anchor, count) in &report.counts {
        let counted = session.count_of(anchor, report.property);
        assert_eq!(written.count_of(anchor, report.property), counted);
        match answer {
            // The anchors are of another media.
            Err(Condition::HasAnchor) => assert!(counted.is_ok()),
            _ => assert_eq!(counted, Ok(answer.map(|()| count))),
        }
    }
    number_or_0(answer)
}

#[test]
fn each_damage_fails_its_condition() {
    for seed in 0..400 {
        let mut random = Random::new(seed);
        let report = CountReport::new(&mut random);
        for change in &CHANGES {
            let mut changed = report.clone();
            changed.change(&mut random, change);
            assert_eq!(check_report(&changed), change.condition, "seed {seed}: {}", change.name);
        }
    }
}

#[test]
fn of_several_changes_the_first_condition_is_named() {
    let mut met = [0; 8];
    for seed in 0..6_000 {
        let mut random = Random::new(seed);
        let mut report = CountReport::new(&mut random);
        let condition = report.change_some(&mut random);
        assert_eq!(check_report(&report), condition, "seed {seed}");
        met[usize::from(condition)] += 1;
    }
    println!("several changes: {met:?}");
    assert!(met.iter().all(|&number| number > 100), "{met:?}");
}
