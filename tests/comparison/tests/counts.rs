//! Shown counts: the check of a document and the count of an anchor, on generated reports, changed
//! ones, sessions changed by somebody, and with every id.

use comparison::compare::{counts_of_written, equal, Both};
use comparison::flat::{bytes_of, session_of, Empty};
use comparison::player::Session;
use comparison::runs::{run_report, times, Count};
use second_engine::count_reports::{CountReport, CHANGES};
use second_engine::coverage::{Coverage, Feature};
use second_engine::random::Random;
use second_engine::{Refusal, WrittenSession};

#[test]
fn reports_and_changed_reports() {
    let (mut count, mut coverage) = (Count::default(), Coverage::new());
    for seed in 4_000_000..4_000_000 + 1_000 * times() {
        equal(run_report(seed, &mut count, &mut coverage));
    }
    println!("reports: {count:?}");
    for feature in Feature::expected_of_counts() {
        println!("{feature:?}: {}", coverage.number(feature));
    }
    assert_eq!(coverage.missing_of_counts(), []);
}

// Every media and anchor byte, with properties in the table, past it and past any table.
#[test]
fn every_id() {
    let mut coverage = Coverage::new();
    for seed in 0..4 {
        let report = CountReport::new(&mut Random::new(seed));
        let both = equal(Both::load(&report.bytes())).expect("a report loads");
        for id in 0..=255 {
            for property in (0..=8).chain([31, 32, 33, 128, 254, 255]) {
                coverage.meet_counts(equal(both.counts([id, id, property])));
            }
        }
    }
    assert!(coverage.number(Feature::CountsChecked { condition: 0 }) >= 4);
    assert!(coverage.number(Feature::CountGiven) >= 4);
}

// The session of a refused document is a broken one.
#[test]
fn empty_session() {
    let (player, written) = (Session::empty(), WrittenSession::empty());
    for id in 0..=255 {
        for property in [0, 1, 255] {
            let answers = equal(counts_of_written(&player, &written, [id, id, property]));
            assert_eq!(answers, (Err(Refusal::BrokenSession), Err(Refusal::BrokenSession)));
        }
    }
}

// A comparison that cannot fail shows nothing: with a changed report for the second engine alone,
// each condition that fails is found by the check alone, for there is no anchor 255, and a count
// that differs by one is found by the count alone.
#[test]
fn differences_are_found() {
    for seed in 0..20 {
        let mut random = Random::new(seed);
        let report = CountReport::new(&mut random);
        let (written, _) = WrittenSession::load(&report.bytes());
        let player = session_of(&bytes_of(&written));
        let (media, property) = (report.media, report.property);
        let (anchor, count) = random.pick(&report.counts);
        let answers = counts_of_written(&player, &written, [media, anchor, property]);
        assert_eq!(equal(answers), (Ok(Ok(())), Ok(Ok(count))));
        for change in &CHANGES {
            let mut changed = report.clone();
            changed.change(&mut random, change);
            let (changed, _) = WrittenSession::load(&changed.bytes());
            let found = counts_of_written(&player, &changed, [media, 255, property]).is_err();
            assert_eq!(found, change.condition > 0, "{}", change.name);
        }
        let mut shifted = written.clone();
        let actions = shifted.links.iter_mut().flat_map(|link| &mut link.actions);
        let sets = actions.filter(|action| (action.action, action.target) == (6, property));
        sets.for_each(|action| action.value = action.value.wrapping_add(1));
        assert!(counts_of_written(&player, &shifted, [media, anchor, property]).is_err());
        let mut broken = written;
        broken.nodes[0].clock = 1;
        assert!(counts_of_written(&player, &broken, [media, anchor, property]).is_err());
    }
}
