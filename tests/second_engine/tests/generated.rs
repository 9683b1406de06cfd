//! Thousands of generated documents and lists of calls with fixed seeds.

use second_engine::call::Call;
use second_engine::check::{check_anchors, check_choices, check_composites, History};
use second_engine::coverage::{Coverage, Feature};
use second_engine::generate::{self, Generated};
use second_engine::printed::{lines_of, PRINTED_RUN_LOG_LENGTH};
use second_engine::random::Random;
use second_engine::{load, printed_run, Probe, Refusal, Session, WrittenSession};

/// Bytes that no call writes, so that a slice left as it was is seen.
fn untouched_log(length: usize) -> Vec<u8> {
    vec![0xAB; length]
}

/// Runs a call on both forms of a session and looks at all that holds for each answer.
fn checked_call(
    session: &mut Session,
    written: &mut WrittenSession,
    call: Call,
    log_length: usize,
    probe: &mut Probe,
) -> (Result<usize, Refusal>, Vec<u8>) {
    let before = written.clone();
    let mut log = untouched_log(log_length);
    let mut written_log = untouched_log(log_length);
    let answer = session.probed_call(call, &mut log, probe);
    assert_eq!(written.call(call, &mut written_log), answer);
    assert_eq!(written_log, log);
    assert_eq!(*written, WrittenSession::from(&*session));
    match answer {
        Ok(_) => {
            let used = 4 * lines_of(&log).len();
            assert!(log[used..].iter().all(|&byte| byte == 0));
            assert!(log[..used].chunks(4).all(|line| line[3] == 0));
        }
        Err(_) => {
            assert_eq!(*written, before);
            assert!(log.iter().all(|&byte| byte == 0));
        }
    }
    (answer, log)
}

fn run_document(random: &mut Random, document: &Generated, coverage: &mut Coverage) {
    coverage.meet_document(&document.bytes);
    let loaded = load(&document.bytes);
    let (mut written, written_answer) = WrittenSession::load(&document.bytes);
    assert_eq!(loaded.as_ref().err().copied(), written_answer.err());
    assert!(!document.is_valid || loaded.is_ok(), "a valid document is refused: {loaded:?}");
    let Ok(mut session) = loaded else {
        assert_eq!(written, WrittenSession::empty());
        return;
    };
    let mut history = History::new();
    history.check(&written).unwrap();
    for call in generate::calls(random, document, 30) {
        let mut probe = Probe::default();
        let log_length = generate::log_length(random);
        let (answer, log) = checked_call(&mut session, &mut written, call, log_length, &mut probe);
        coverage.meet_call(session.document(), call, answer, &log, &probe);
        if let Ok(firings) = answer {
            history.join(&log, firings, written.limit).unwrap();
        }
        history.check(&written).unwrap();
        check_choices(&written).unwrap();
        let (class, id) = (random.likely_byte(), random.likely_byte());
        let reading = session.read(class, id);
        assert_eq!(written.read(class, id), reading);
        coverage.meet_read(class, reading.map(|_| ()));
    }
    run_changed(random, document, written, coverage);
}

/// Calls on a session with a field changed by an outsider.
fn run_changed(
    random: &mut Random,
    document: &Generated,
    mut written: WrittenSession,
    coverage: &mut Coverage,
) {
    let tables = session_tables(&written);
    let whole = written.clone();
    generate::change_field(random, &mut written);
    coverage.meet_written(&whole, &written);
    let tables_are_as_loaded = session_tables(&written) == tables;
    let is_broken = written.is_broken();
    if tables_are_as_loaded {
        let keeps_rules = check_composites(&written).and(check_anchors(&written)).is_ok();
        let keeps_choices = check_choices(&written).is_ok();
        assert!(keeps_rules && keeps_choices || is_broken);
    }
    for _ in 0..3 {
        let call = generate::call(random, document.nodes, document.properties);
        let before = written.clone();
        let mut log = untouched_log(2_048);
        let answer = written.call(call, &mut log);
        assert_eq!(is_broken, answer == Err(Refusal::BrokenSession));
        if answer.is_err() {
            assert_eq!(written, before);
            assert!(log.iter().all(|&byte| byte == 0));
        }
        if let (true, Err(refusal)) = (is_broken, answer) {
            let refusal = refusal.number();
            coverage.meet(Feature::CallRefused { call: call.into(), refusal });
            let reading = written.read(random.likely_byte(), random.likely_byte());
            assert_eq!(reading, Err(Refusal::BrokenSession));
            coverage.meet_read(1, reading.map(|_| ()));
        } else {
            let session = Session::try_from(&written).unwrap();
            assert_eq!(WrittenSession::from(&session), written);
            check_composites(&written).unwrap();
            check_anchors(&written).unwrap();
            check_choices(&written).unwrap();
        }
    }
}

/// The session with everything but its tables set to zero.
fn session_tables(written: &WrittenSession) -> WrittenSession {
    let mut tables = written.clone();
    for node in &mut tables.nodes {
        (node.state, node.clock, node.count, node.choice) = (0, 0, 0, 0);
    }
    for anchor in &mut tables.anchors {
        (anchor.state, anchor.count) = (0, 0);
    }
    for property in &mut tables.properties {
        (property.value, property.count) = (0, 0);
    }
    tables
}

#[test]
fn generated_runs_keep_all_statements_and_meet_all_features() {
    let mut coverage = Coverage::new();
    for seed in 0..6_000 {
        let mut random = Random::new(seed);
        let document = generate::document(&mut random);
        run_document(&mut random, &document, &mut coverage);
    }
    // Damaged documents are mostly refused, so many are needed to meet every refusal.
    for seed in 6_000..40_000 {
        let mut random = Random::new(seed);
        coverage.meet_document(&generate::document(&mut random).bytes);
        coverage.meet_document(&generate::meaningless_bytes(&mut random));
    }
    for feature in Feature::expected().into_iter().chain(Feature::expected_of_written()) {
        println!("{feature:?}: {}", coverage.number(feature));
    }
    assert_eq!(coverage.missing(), []);
    assert_eq!(coverage.missing_of_written(), []);
}

/// Sessions of generated documents in the middle of their calls, each with a next call.
fn sessions_with_a_call(seeds: std::ops::Range<u64>) -> Vec<(WrittenSession, Call)> {
    let mut sessions = Vec::new();
    for seed in seeds {
        let mut random = Random::new(seed);
        let document = generate::document(&mut random);
        let Ok(mut session) = load(&document.bytes) else {
            continue;
        };
        for call in generate::calls(&mut random, &document, 12) {
            sessions.push((WrittenSession::from(&session), call));
            let _ = session.call(call, &mut untouched_log(2_048));
        }
    }
    sessions
}

// An accepted call is accepted with every log that has room for its lines, with the same result,
// and refused 12 with every other.
#[test]
fn log_length_decides_refusal_for_a_full_log() {
    for (session, call) in sessions_with_a_call(0..150) {
        let mut ample = session.clone();
        let mut ample_log = vec![0; PRINTED_RUN_LOG_LENGTH];
        let answer = ample.call(call, &mut ample_log);
        let lines = lines_of(&ample_log).len();
        if answer.is_err() || lines > 100 {
            continue;
        }
        for length in 0..4 * lines + 6 {
            let mut scarce = session.clone();
            let mut log = untouched_log(length);
            let scarce_answer = scarce.call(call, &mut log);
            if length < 4 * lines {
                assert_eq!(scarce_answer, Err(Refusal::LogFull));
            } else {
                assert_eq!(scarce_answer, answer);
                assert_eq!(log, ample_log[..length]);
                assert_eq!(scarce, ample);
            }
        }
    }
}

// A call with some number of firings is accepted under every limit from that number on, with the
// same log, and refused 11 under every lower one.
#[test]
fn limit_decides_refusal_for_the_limit() {
    for (mut session, call) in sessions_with_a_call(0..400) {
        session.limit = 255;
        let mut ample_log = vec![0; PRINTED_RUN_LOG_LENGTH];
        let Ok(firings @ 1..) = session.clone().call(call, &mut ample_log) else {
            continue;
        };
        for limit in 1..=(firings + 2).min(255) {
            session.limit = limit as u8;
            let mut log = vec![0; PRINTED_RUN_LOG_LENGTH];
            let answer = session.clone().call(call, &mut log);
            if limit < firings {
                assert_eq!(answer, Err(Refusal::FiringLimit));
            } else {
                assert_eq!(answer, Ok(firings));
                assert_eq!(log, ample_log);
            }
        }
    }
}

// A valid document cut short: 3 without a byte, 1 inside a record, 8 before the first node, and
// else it loads.
#[test]
fn every_cut_of_a_valid_document() {
    const BODY_LENGTHS: [usize; 10] = [1, 4, 5, 4, 6, 3, 3, 2, 5, 6];
    for seed in 0..200 {
        let document = generate::document(&mut Random::new(seed));
        if !document.is_valid || document.bytes.len() > 1_000 {
            continue;
        }
        let bytes = &document.bytes;
        assert_eq!(load(&[]), Err(Refusal::WrongHead));
        let (mut start, mut has_node) = (0, false);
        while start < bytes.len() {
            let end = start + 1 + BODY_LENGTHS[usize::from(bytes[start])];
            for cut in start + 1..end {
                assert_eq!(load(&bytes[..cut]), Err(Refusal::RecordCut));
            }
            has_node |= bytes[start] == 1;
            let loaded = load(&bytes[..end]);
            assert_eq!(loaded.err(), (!has_node).then_some(Refusal::NoNode));
            start = end;
        }
    }
}

/// The printed run put together from the calls of a session.
fn printed_from_calls(document: &[u8], calls: &[Call]) -> String {
    let mut session = load(document).unwrap();
    let mut printed = String::new();
    for (place, &call) in calls.iter().enumerate() {
        let mut log = untouched_log(PRINTED_RUN_LOG_LENGTH);
        let mut words = vec![(place + 1).to_string()];
        match session.call(call, &mut log) {
            Ok(firings) => {
                let lines = lines_of(&log);
                words.extend(["ok".into(), lines.len().to_string(), firings.to_string()]);
                words.extend(
                    lines.iter().map(|line| format!("{}.{}.{}", line[0], line[1], line[2])),
                );
            }
            Err(refusal) => words.extend(["no".into(), refusal.number().to_string()]),
        }
        printed += &words.join(" ");
        printed += "\n";
    }
    printed
}

#[test]
fn printed_runs_show_the_calls() {
    let mut wrong_scripts = 0;
    for seed in 0..1_000 {
        let mut random = Random::new(seed);
        let document = generate::document(&mut random);
        let calls = generate::calls(&mut random, &document, 20);
        let script = generate::script(&mut random, &calls);
        let printed = printed_run(&document.bytes, &script);
        if let Err(refusal) = load(&document.bytes) {
            assert_eq!(printed, format!("doc {}\n", refusal.number()));
            continue;
        }
        let whole = printed_from_calls(&document.bytes, &calls);
        match printed.strip_suffix("script\n") {
            Some(start) => {
                assert!(whole.starts_with(start));
                wrong_scripts += 1;
            }
            None => assert!(whole.starts_with(&printed)),
        }
    }
    assert!(wrong_scripts > 0);
}

#[test]
fn a_seed_gives_the_same_document_and_calls_each_time() {
    for seed in 0..100 {
        let bytes = |seed| {
            let mut random = Random::new(seed);
            let document = generate::document(&mut random);
            let calls = generate::calls(&mut random, &document, 20);
            (document.bytes, generate::script(&mut random, &calls))
        };
        assert_eq!(bytes(seed), bytes(seed));
    }
}
