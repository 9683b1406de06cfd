//! Generated runs with fixed seeds, each told so that it can be run again.

use second_engine::count_reports::CountReport;
use second_engine::counts::{CheckAnswer, CountAnswer};
use second_engine::coverage::Coverage;
use second_engine::generate::{self, Generated};
use second_engine::random::Random;
use second_engine::{Call, Fault, Probe, WrittenSession};

use crate::compare::{call_on_written, counts_of_written, hex, read_of_written, Both, Difference};
use crate::flat::{bytes_of, session_of, SESSION_SIZE};

/// How many times as many runs as usual: the variable COMPARISON_RUNS.
pub fn times() -> u64 {
    let runs = std::env::var("COMPARISON_RUNS");
    runs.map_or(1, |runs| runs.parse().expect("COMPARISON_RUNS is a number"))
}

/// What was compared.
#[derive(Debug, Default, Clone, Copy)]
pub struct Count {
    pub documents: usize,
    pub loaded: usize,
    pub calls: usize,
    pub accepted: usize,
    pub reads: usize,
    /// Checks of counts, with as many anchors' counts.
    pub count_checks: usize,
    pub broken: usize,
}

/// The run so far, for the message of a difference.
#[derive(Default)]
pub struct Told {
    pub seed: u64,
    pub document: Vec<u8>,
    /// A session that somebody wrote down, in place of the document's.
    pub session: Option<Vec<u8>>,
    pub calls: Vec<(Call, usize)>,
    /// The script of a printed run, in place of the calls.
    pub script: Option<Vec<u8>>,
}

impl Told {
    pub fn with(&self, difference: Difference) -> Difference {
        let mut told = format!("seed {}\ndocument {}\n", self.seed, hex(&self.document));
        if let Some(session) = &self.session {
            told += &format!("session {}\n", hex(session));
        }
        for (call, log_length) in &self.calls {
            told += &format!("call {} log length {log_length}\n", hex(&call.bytes()));
        }
        if let Some(script) = &self.script {
            told += &format!("script {}\n", hex(script));
        }
        told + &difference
    }
}

/// A document, a list of calls, and reads and operations on counts between them; with a fault
/// planted in the second engine, a difference is to be expected.
pub fn run(
    seed: u64,
    fault: Option<Fault>,
    count: &mut Count,
    coverage: &mut Coverage,
) -> Result<(), Difference> {
    let mut random = Random::new(seed);
    let document = generate::document(&mut random);
    let mut told = Told { seed, document: document.bytes.clone(), ..Told::default() };
    run_document(&mut random, &document, fault, &mut told, count, coverage)
        .map_err(|difference| told.with(difference))
}

fn run_document(
    random: &mut Random,
    document: &Generated,
    fault: Option<Fault>,
    told: &mut Told,
    count: &mut Count,
    coverage: &mut Coverage,
) -> Result<(), Difference> {
    coverage.meet_document(&document.bytes);
    count.documents += 1;
    let Ok(mut both) = Both::load(&document.bytes)? else {
        return Ok(());
    };
    count.loaded += 1;
    for call in generate::calls(random, document, 30) {
        let mut probe = Probe { fault, ..Probe::default() };
        let log_length = generate::log_length(random);
        told.calls.push((call, log_length));
        let (answer, log) = both.call(call, log_length, &mut probe)?;
        count.calls += 1;
        count.accepted += usize::from(answer.is_ok());
        coverage.meet_call(both.second.document(), call, answer, &log, &probe);
        for _ in 0..3 {
            let (class, id) = (random.likely_byte(), random.likely_byte());
            coverage.meet_read(class, both.read(class, id)?);
            count.reads += 1;
        }
        coverage.meet_counts(both.counts(count_ids(random))?);
        count.count_checks += 1;
    }
    Ok(())
}

/// A media, an anchor and a property, each at times out of its table.
fn count_ids(random: &mut Random) -> [u8; 3] {
    let property = match random.one_in(4) {
        true => random.likely_byte(),
        false => random.below(4) as u8,
    };
    [random.likely_byte(), random.likely_byte(), property]
}

/// A report that shows counts, or a changed one: both operations on every media, anchor and
/// property, then a list of calls with both between them, and on the last session changed by
/// somebody.
pub fn run_report(seed: u64, count: &mut Count, coverage: &mut Coverage) -> Result<(), Difference> {
    let mut random = Random::new(seed);
    let mut report = CountReport::new(&mut random);
    if random.one_in(2) {
        report.change_some(&mut random);
    }
    let mut told = Told { seed, document: report.bytes(), ..Told::default() };
    let last = run_calls_of_report(&mut random, &report, &mut told, count, coverage)
        .map_err(|difference| told.with(difference))?;
    let empty = bytes_of(&WrittenSession::empty());
    let session = changed(&mut random, &last, &empty);
    run_written(&mut random, seed, session, 1, count, coverage)
}

/// The session after the calls.
fn run_calls_of_report(
    random: &mut Random,
    report: &CountReport,
    told: &mut Told,
    count: &mut Count,
    coverage: &mut Coverage,
) -> Result<Vec<u8>, Difference> {
    count.documents += 1;
    let mut both = Both::load(&told.document)?.expect("a report loads");
    count.loaded += 1;
    // Every media, anchor and property, ids one past the tables, and 255.
    let document = both.second.document();
    let ids = |length: usize| (0..=length as u8).chain([255]);
    for property in ids(document.first_values.len()) {
        for id in ids(document.nodes.len().max(document.anchors.len())) {
            coverage.meet_counts(both.counts([id, id, property])?);
            count.count_checks += 1;
        }
    }
    for call in report.calls(random, 20) {
        let log_length = generate::log_length(random);
        told.calls.push((call, log_length));
        let (answer, _) = both.call(call, log_length, &mut Probe::default())?;
        count.calls += 1;
        count.accepted += usize::from(answer.is_ok());
        coverage.meet_counts(both.counts(count_ids(random))?);
        let (anchor, _) = random.pick(&report.counts);
        coverage.meet_counts(both.counts([report.media, anchor, report.property])?);
        count.count_checks += 2;
    }
    Ok(bytes_of(&both.player))
}

/// The sessions of a generated document before each of its calls, with the call that comes next.
/// A difference on the way ends the test.
pub fn sessions(seed: u64, most: usize) -> Vec<(Vec<u8>, Call)> {
    let mut random = Random::new(seed);
    let document = generate::document(&mut random);
    let mut told = Told { seed, document: document.bytes.clone(), ..Told::default() };
    let loaded = Both::load(&document.bytes);
    let Ok(mut both) = loaded.unwrap_or_else(|difference| panic!("{}", told.with(difference)))
    else {
        return Vec::new();
    };
    let mut sessions = Vec::new();
    for call in generate::calls(&mut random, &document, most) {
        sessions.push((bytes_of(&both.player), call));
        told.calls.push((call, 4_096));
        let called = both.call(call, 4_096, &mut Probe::default());
        let compared = called.and_then(|_| both.counts(count_ids(&mut random)));
        if let Err(difference) = compared {
            panic!("{}", told.with(difference));
        }
    }
    sessions
}

/// Calls, reads and operations on counts on the session as written down by somebody, whole or
/// broken.
pub fn run_written(
    random: &mut Random,
    seed: u64,
    session: Vec<u8>,
    calls: usize,
    count: &mut Count,
    coverage: &mut Coverage,
) -> Result<(), Difference> {
    let mut told = Told { seed, session: Some(session.clone()), ..Told::default() };
    let mut bytes = session;
    for _ in 0..calls {
        let written: WrittenSession = session_of(&bytes);
        let (class, id) = (random.between(0, 4) as u8, random.likely_byte());
        let reading = read_of_written(&session_of(&bytes), &written, class, id);
        let reading = reading.map_err(|difference| told.with(difference))?;
        count.reads += 1;
        count.broken += usize::from(reading == Err(13));
        let counts = compare_counts_of_written(random, &bytes);
        coverage.meet_counts(counts.map_err(|difference| told.with(difference))?);
        count.count_checks += 1;
        let call =
            generate::call(random, written.node_count.min(64), written.property_count.min(32));
        let log_length = generate::log_length(random).min(4_096);
        told.calls.push((call, log_length));
        let called = call_on_written(&bytes, call, log_length);
        let (answer, after) = called.map_err(|difference| told.with(difference))?;
        count.calls += 1;
        count.accepted += usize::from(answer.is_ok());
        bytes = after;
    }
    Ok(())
}

/// A check of counts and the count of an anchor on the session as written down by somebody.
pub fn compare_counts_of_written(
    random: &mut Random,
    bytes: &[u8],
) -> Result<(CheckAnswer, CountAnswer), Difference> {
    counts_of_written(&session_of(bytes), &session_of(bytes), count_ids(random))
}

/// A session changed in some way: its fields, its choices, its bytes, or parts of it from another
/// session.
pub fn changed(random: &mut Random, session: &[u8], other: &[u8]) -> Vec<u8> {
    let mut bytes = session.to_vec();
    for _ in 0..random.pick(&[1, 1, 1, 2, 5]) {
        match random.below(5) {
            0 => {
                let mut written: WrittenSession = session_of(&bytes);
                generate::change_field(random, &mut written);
                bytes = bytes_of(&written);
            }
            1 => {
                let mut written: WrittenSession = session_of(&bytes);
                generate::change_choice(random, &mut written);
                bytes = bytes_of(&written);
            }
            2 => bytes[random.below(SESSION_SIZE)] = random.likely_byte(),
            3 => {
                let place = random.below(SESSION_SIZE);
                bytes[place] = bytes[place].wrapping_add(random.pick(&[1, 255, 128]));
            }
            _ => {
                let place = random.below(SESSION_SIZE);
                let end = (place + random.between(1, 200)).min(SESSION_SIZE);
                bytes[place..end].copy_from_slice(&other[place..end]);
            }
        }
    }
    bytes
}
