//! Thousands of generated documents, lists of calls and written sessions with fixed seeds.

use std::cmp::Reverse;

use comparison::compare::{call_on_written, equal, read_of_written, Both};
use comparison::flat::{bytes_of, session_of, SESSION_SIZE};
use comparison::player::Session;
use comparison::runs::{
    changed, compare_counts_of_written, run, run_written, sessions, times, Count, Told,
};
use second_engine::coverage::{Coverage, Feature};
use second_engine::generate;
use second_engine::random::Random;
use second_engine::written::NO_CHOICE;
use second_engine::{Call, Fault, WrittenSession};

#[test]
fn bytes_and_sessions_are_one_to_one() {
    let mut random = Random::new(0);
    for _ in 0..200 {
        let bytes: Vec<u8> = (0..SESSION_SIZE).map(|_| random.byte()).collect();
        assert_eq!(bytes_of(&session_of::<Session>(&bytes)), bytes);
        assert_eq!(bytes_of(&session_of::<WrittenSession>(&bytes)), bytes);
    }
}

#[test]
fn documents_and_calls() {
    let (mut count, mut coverage) = (Count::default(), Coverage::new());
    for seed in 0..6_000 * times() {
        equal(run(seed, None, &mut count, &mut coverage));
    }
    // Damaged documents are mostly refused, so many are needed to meet every refusal.
    for seed in 0..40_000 * times() {
        let mut random = Random::new(1_000_000 + seed);
        for document in
            [generate::document(&mut random).bytes, generate::meaningless_bytes(&mut random)]
        {
            coverage.meet_document(&document);
            count.documents += 1;
            let told = Told { seed: 1_000_000 + seed, document, ..Told::default() };
            let loaded = Both::load(&told.document);
            let loaded = equal(loaded.map_err(|difference| told.with(difference)));
            count.loaded += usize::from(loaded.is_ok());
        }
    }
    println!("documents and calls: {count:?}");
    let left = coverage.missing();
    let is_of_written = |feature: &Feature| {
        matches!(
            feature,
            Feature::CallRefused { refusal: 13, .. } | Feature::ReadRefused { refusal: 13 }
        )
    };
    assert!(left.iter().all(is_of_written), "not met: {left:?}");
}

#[test]
fn written_sessions() {
    let (mut count, mut coverage) = (Count::default(), Coverage::new());
    let mut other = bytes_of(&WrittenSession::empty());
    for seed in 0..1_500 * times() {
        let mut random = Random::new(2_000_000 + seed);
        let found = sessions(seed, 20);
        for (session, _) in &found {
            if random.one_in(2) {
                let changed = changed(&mut random, session, &other);
                coverage.meet_written(&session_of(session), &session_of(&changed));
                equal(run_written(&mut random, seed, changed, 3, &mut count, &mut coverage));
            }
        }
        if let Some((session, _)) = found.last() {
            other.clone_from(session);
        }
    }
    // Nothing but chance.
    for seed in 0..500 * times() {
        let mut random = Random::new(3_000_000 + seed);
        let density = random.between(1, 64);
        let session =
            (0..SESSION_SIZE).map(
                |_| {
                    if random.one_in(density) {
                        random.likely_byte()
                    } else {
                        0
                    }
                },
            );
        let session = session.collect();
        equal(run_written(&mut random, seed, session, 1, &mut count, &mut coverage));
    }
    println!("written sessions: {count:?}");
    assert!(count.broken > 1_000 && count.accepted > 1_000);
    assert!(coverage.number(Feature::CountsCheckRefused { refusal: 13 }) > 1_000);
    assert!(coverage.number(Feature::CountRefused { refusal: 13 }) > 1_000);
    for feature in Feature::expected_of_written() {
        println!("{feature:?}: {}", coverage.number(feature));
    }
    assert_eq!(coverage.missing_of_written(), []);
}

fn awake_events(session: &WrittenSession) -> usize {
    session.nodes.iter().filter(|node| node.state != 0).count()
        + session.anchors.iter().filter(|anchor| anchor.state != 0).count()
}

fn choices(session: &WrittenSession) -> usize {
    session.nodes.iter().filter(|node| node.choice != NO_CHOICE).count()
}

/// For each of some documents the session in which most is awake, those with the most events,
/// rules, binds and choices first.
fn rich_sessions() -> Vec<(u64, Vec<u8>, Call)> {
    let mut rich: Vec<(u64, Vec<u8>, Call)> = Vec::new();
    for seed in 0..400 {
        let best = sessions(seed, 20)
            .into_iter()
            .max_by_key(|(session, _)| awake_events(&session_of(session)));
        rich.extend(best.map(|(session, call)| (seed, session, call)));
    }
    rich.sort_by_cached_key(|(_, session, _)| {
        let written: WrittenSession = session_of(session);
        let tables = written.rule_count + written.bind_count;
        Reverse(awake_events(&written) + tables + choices(&written))
    });
    rich
}

#[test]
fn every_byte_of_a_session_changed() {
    let mut count = Count::default();
    for (seed, session, call) in rich_sessions().into_iter().take(3 * times() as usize) {
        for place in 0..SESSION_SIZE {
            for change in [1, 2, 255, 128] {
                let mut bytes = session.clone();
                bytes[place] = bytes[place].wrapping_add(change);
                let told = Told {
                    seed,
                    session: Some(bytes.clone()),
                    calls: vec![(call, 1_024)],
                    ..Told::default()
                };
                let called = call_on_written(&bytes, call, 1_024);
                let (answer, _) = equal(called.map_err(|difference| told.with(difference)));
                count.calls += 1;
                count.accepted += usize::from(answer.is_ok());
                count.broken += usize::from(answer == Err(13));
                let mut random = Random::new(place as u64);
                let compared = compare_counts_of_written(&mut random, &bytes);
                let _ = equal(compared.map_err(|difference| told.with(difference)));
                count.count_checks += 1;
            }
        }
    }
    println!("every byte of a session changed: {count:?}");
}

#[test]
fn counts_of_any_size() {
    let mut count = Count::default();
    let mut random = Random::new(0);
    for (seed, session, call) in rich_sessions().into_iter().take(5) {
        for number in [0, 1, 31, 32, 33, 63, 64, 65, 127, 128, 129, 255, 256, 1 << 16, 1 << 32]
            .into_iter()
            .chain([(1 << 32) + 1, (1 << 63) - 1, 1 << 63, u64::MAX - 1, u64::MAX])
        {
            let mut written: WrittenSession = session_of(&session);
            for table in 0..7 {
                let mut changed = written.clone();
                let field = [
                    &mut changed.node_count,
                    &mut changed.anchor_count,
                    &mut changed.property_count,
                    &mut changed.rule_count,
                    &mut changed.bind_count,
                    &mut changed.port_count,
                    &mut changed.link_count,
                ];
                *field.into_iter().nth(table).expect("seven tables") = number as usize;
                let bytes = bytes_of(&changed);
                let told = Told { seed, session: Some(bytes.clone()), ..Told::default() };
                let called = call_on_written(&bytes, call, 1_024);
                let (answer, _) = equal(called.map_err(|difference| told.with(difference)));
                count.calls += 1;
                count.broken += usize::from(answer == Err(13));
                let compared = compare_counts_of_written(&mut random, &bytes);
                let _ = equal(compared.map_err(|difference| told.with(difference)));
                count.count_checks += 1;
            }
            written.limit = number as u8;
            let (answer, _) = equal(call_on_written(&bytes_of(&written), call, 1_024));
            count.broken += usize::from(answer == Err(13));
        }
    }
    println!("counts of any size: {count:?}");
}

#[test]
fn logs_of_every_length() {
    let mut count = Count::default();
    let long = [64, 100, 255, 256, 257, 767, 1_023, 4_096, 65_535, 65_536];
    for seed in 0..250 * times() {
        for (session, call) in sessions(seed, 12) {
            for length in (0..=40).chain(long) {
                let told = Told {
                    seed,
                    session: Some(session.clone()),
                    calls: vec![(call, length)],
                    ..Told::default()
                };
                let called = call_on_written(&session, call, length);
                let (answer, _) = equal(called.map_err(|difference| told.with(difference)));
                count.calls += 1;
                count.accepted += usize::from(answer.is_ok());
            }
        }
    }
    println!("logs of every length: {count:?}");
}

#[test]
fn reads_of_every_class_and_id() {
    let mut count = Count::default();
    for (place, (seed, session, _)) in rich_sessions().into_iter().take(40).enumerate() {
        let (player, written) = (session_of(&session), session_of(&session));
        // All classes for the first, those near the right ones for the others.
        let classes = if place == 0 { 0..=255 } else { 0..=5 };
        for class in classes {
            for id in 0..=255 {
                let told = Told { seed, session: Some(session.clone()), ..Told::default() };
                let read = read_of_written(&player, &written, class, id);
                let read = read.map_err(|difference| format!("{class} {id}: {difference}"));
                count.accepted +=
                    usize::from(equal(read.map_err(|difference| told.with(difference))).is_ok());
                count.reads += 1;
            }
        }
    }
    println!("reads of every class and id: {count:?}");
}

// A comparison that cannot fail shows nothing: each of 01's traps and each fault against Req 01,
// planted in the second engine, is found.
#[test]
fn planted_faults_are_found() {
    for fault in Fault::TRAPS.into_iter().chain(Fault::AGAINST_CHOICES) {
        let found = (0..1_000).filter(|&seed| {
            let (mut count, mut coverage) = (Count::default(), Coverage::new());
            run(seed, Some(fault), &mut count, &mut coverage).is_err()
        });
        let found = found.count();
        println!("{fault:?}: found in {found} of 1000 runs");
        assert!(found > 0, "{fault:?} is not found");
    }
}
