//! Planted faults are found: generated runs of the faulty engine differ from those of the sound
//! one. The faults are the traps that 01 names and those that go against Req 01.

mod common;

use common::{calls_of, document};
use second_engine::check::History;
use second_engine::generate;
use second_engine::random::Random;
use second_engine::{load, printed_run, printed_run_with, Call, Fault, Probe, WrittenSession};

const LOG_LENGTH: usize = 2_048;

/// Whether answers, logs or sessions differ after any of the calls.
fn differs(document: &[u8], calls: &[Call], fault: Fault) -> bool {
    let Ok(mut sound) = load(document) else {
        return false;
    };
    let mut faulty = sound.clone();
    calls.iter().any(|&call| {
        let (mut sound_log, mut faulty_log) = ([0; LOG_LENGTH], [0; LOG_LENGTH]);
        let sound_answer = sound.call(call, &mut sound_log);
        let mut probe = Probe::with_fault(fault);
        let faulty_answer = faulty.probed_call(call, &mut faulty_log, &mut probe);
        (sound_answer, sound_log, &sound) != (faulty_answer, faulty_log, &faulty)
    })
}

/// Whether the statements of demand 3 are found to fail after any of the calls.
fn breaks_statements(document: &[u8], calls: &[Call], fault: Fault) -> bool {
    let Ok(mut session) = load(document) else {
        return false;
    };
    let mut history = History::new();
    calls.iter().any(|&call| {
        let mut log = [0; LOG_LENGTH];
        let limit = session.document().limit;
        let answer = session.probed_call(call, &mut log, &mut Probe::with_fault(fault));
        let joined = answer.map_or(Ok(()), |firings| history.join(&log, firings, limit));
        joined.and(history.check(&WrittenSession::from(&session))).is_err()
    })
}

fn generated_runs() -> impl Iterator<Item = (Vec<u8>, Vec<Call>)> {
    (0..1_000).map(|seed| {
        let mut random = Random::new(seed);
        let document = generate::document(&mut random);
        let calls = generate::calls(&mut random, &document, 30);
        (document.bytes, calls)
    })
}

#[test]
fn generated_runs_find_every_fault() {
    let runs: Vec<_> = generated_runs().collect();
    for fault in Fault::TRAPS.into_iter().chain(Fault::AGAINST_CHOICES) {
        let found = runs.iter().filter(|(document, calls)| differs(document, calls, fault)).count();
        println!("{fault:?}: found in {found} of {} runs", runs.len());
        assert!(found > 0, "{fault:?} is not found");
    }
}

// The statements alone find the two faults that go against them.
#[test]
fn statements_find_counted_aborts_and_late_anchors() {
    let runs: Vec<_> = generated_runs().collect();
    for fault in [Fault::CountAborts, Fault::AnchorAwakeAtEnd] {
        assert!(runs.iter().any(|(document, calls)| breaks_statements(document, calls, fault)));
    }
}

// A small document for each fault, and no difference by the other faults.
#[test]
fn one_document_for_each_fault() {
    let two_media = "head 9; context 255; media 0 0; media 0 0; port 0 1; port 0 2";
    let cases = [
        (Fault::SettleAfterEachMedia, two_media, "start 0; pause 2; stop 0"),
        (Fault::CountAborts, two_media, "start 0; abort 1"),
        (
            Fault::GuardReadWhenLogged,
            "head 9; context 255; property 0; rule 0 eq 1; link key 0; set 0 1; \
             link key 0 guard 0",
            "key 0",
        ),
        (
            Fault::AnchorAwakeAtEnd,
            "head 9; context 255; media 0 0; port 0 1; anchor 1 1 2",
            "start 0; tick; tick",
        ),
        (
            Fault::LinksBeforeAllMediaTicked,
            "head 9; context 255; media 0 1; media 0 0; port 0 1; port 0 2; anchor 2 1 2; \
             link node 1 stops; stop 2",
            "start 0; tick",
        ),
    ];
    for (planted, document_text, script_text) in cases {
        let calls = calls_of(script_text);
        for fault in Fault::TRAPS {
            assert_eq!(differs(&document(document_text), &calls, fault), fault == planted);
        }
    }
}

/// Whether the printed lines differ, which show no choice.
fn prints_differ(document: &[u8], calls: &[Call], fault: Fault) -> bool {
    let script: Vec<u8> = calls.iter().flat_map(|call| call.bytes()).collect();
    printed_run(document, &script) != printed_run_with(document, &script, Some(fault))
}

// A wrong choice is seen in the session at once. It is also seen in what fires.
#[test]
fn printed_runs_find_every_fault_against_choices() {
    let runs: Vec<_> = generated_runs().collect();
    for fault in Fault::AGAINST_CHOICES {
        let is_found =
            |(document, calls): &&(Vec<u8>, Vec<Call>)| prints_differ(document, calls, fault);
        let found = runs.iter().filter(is_found).count();
        println!("{fault:?}: found in {found} of {} printed runs", runs.len());
        assert!(found > 0, "{fault:?} is not found");
    }
}

// A small document and script for each fault against Req 01, and the faults that its print shows.
#[test]
fn one_print_for_each_fault_against_choices() {
    let variants = "head 9; context 255; switch 0; context 1; context 1; media 2 0; media 3 0; \
                    port 0 1; port 2 4; port 3 5; property 0; rule 0 eq 0; rule 0 eq 1; \
                    bind 1 2 0; bind 1 3 1; link in 2 key 0;";
    let with_default = "head 9; context 255; switch 0; context 1; default 1 2; link in 2 key 0";
    let nested = "head 9; context 255; switch 0; context 1; switch 2; context 3; media 4 0; \
                  port 4 5; default 3 4; link in 4 key 0";
    let changing = variants.replacen("link in", "link key 0; stop 1; start 1; link in", 1);
    let cases: [(&str, &str, &[Fault]); 8] = [
        (variants, "key 0", &[Fault::OwnerWithoutEffect]),
        (with_default, "key 0", &[Fault::OwnerWithoutEffect, Fault::DefaultChosenWithoutStart]),
        (variants, "start 1; stop 1; key 0", &[Fault::SleepClearsChoice]),
        (nested, "start 3; key 0", &[Fault::OwnerWithoutEffect, Fault::NearestSwitchOnly]),
        (
            &changing,
            "start 1; set 0 1; key 0",
            &[Fault::OwnerWithoutEffect, Fault::ChoiceReadWhenLogged],
        ),
        (variants, "start 1; set 0 1; start 1; key 0", &[Fault::AwakeSwitchChooses]),
        (variants, "start 1; start 3; key 0", &[Fault::ChildStartChooses]),
        (
            variants,
            "start 1; stop 1; set 0 9; start 1; key 0",
            &[Fault::OwnerWithoutEffect, Fault::EmptyStartKeepsChoice],
        ),
    ];
    for (document_text, script_text, found) in cases {
        for fault in Fault::AGAINST_CHOICES {
            let differ = prints_differ(&document(document_text), &calls_of(script_text), fault);
            assert_eq!(differ, found.contains(&fault), "{fault:?}: {script_text}");
        }
    }
}
