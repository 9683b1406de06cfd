//! Times of both engines on the same documents and scripts, as ratios from one run: first the
//! program `printed_run` and the second engine as a program, on files; then the player and the
//! second engine in this process, where all lend one log slice for the whole script and its lines
//! are summed up after each call. Then the slowest calls that were found, and how the time of a call
//! grows with the document and with its firings.
//!
//! With the arguments `second FOLDER` it is the second engine as a program.

use std::fs::{self, File};
use std::io::Write;
use std::path::Path;
use std::process::Command;
use std::time::{Duration, Instant};
use std::{env, io};

use comparison::player;
use comparison::printed::{program, Folder};
use comparison::reports::{
    deep_guards, lines_of_turn, media_starts_and_stops, report_of_size, script_of_turns,
    start_stop_report, start_stop_script, switch_starts, wide_report, wide_script, Size,
    FIRINGS_ON_EIGHT_SETS, LINES_OF_DEEP_GUARDS, LINES_OF_MEDIA_STARTS_AND_STOPS,
    LINES_OF_SWITCH_STARTS,
};
use second_engine::fields::Fields;
use second_engine::printed::lines_of;
use second_engine::{load, printed_run, Call, Refusal, WrittenSession};

const LOG_LENGTH: usize = 8_192;
const ROUNDS: usize = 5;

/// Prints the run of the files in the folder.
fn print_second(folder: &Path) {
    let read = |name| fs::read(folder.join(name)).expect("the folder has a doc and a script");
    let printed = printed_run(&read("doc"), &read("script"));
    let mut out = io::stdout().lock();
    out.write_all(printed.as_bytes()).and_then(|()| out.flush()).expect("all is written");
}

/// Runs both programs on the same files, by turns, each into a file of its own; the best of some
/// rounds each, printed_run's first.
fn program_times(document: &[u8], script: &[u8]) -> [Duration; 2] {
    let folder = Folder::new("benchmark");
    folder.write(document, script);
    let mut player = Command::new(program());
    player.current_dir(folder.path());
    let mut second = Command::new(env::current_exe().expect("this program has a path"));
    second.arg("second").arg(folder.path());
    let mut best = [Duration::MAX; 2];
    let printed = ["printed", "second"].map(|name| folder.path().join(name));
    for _ in 0..ROUNDS {
        for (place, command) in [&mut player, &mut second].into_iter().enumerate() {
            let out = File::create(&printed[place]).expect("a file for what is printed");
            let start = Instant::now();
            let status = command.stdout(out).status().expect("the program starts");
            best[place] = best[place].min(start.elapsed());
            assert!(status.success());
        }
    }
    let [printed, second] = printed.map(|path| fs::read(path).expect("what was printed"));
    assert!(printed == second, "the printed runs differ");
    best
}

fn calls_of(script: &[u8]) -> Vec<Call> {
    let mut records = Fields::of(script);
    std::iter::from_fn(|| Call::read(&mut records)).collect()
}

/// The sum of the bytes of the lines, and the sum of those sums.
#[derive(Default)]
struct Checksum {
    sum: u64,
    sums: u64,
}

impl Checksum {
    fn add_lines(&mut self, log: &[u8]) {
        for line in log.chunks_exact(4).take_while(|line| line[0] != 0) {
            for &byte in &line[..3] {
                self.sum = self.sum.wrapping_add(u64::from(byte));
                self.sums = self.sums.wrapping_add(self.sum);
            }
        }
    }

    fn number(&self) -> u64 {
        self.sum.wrapping_add(self.sums)
    }
}

/// Makes the calls; the checksum of their lines.
fn run<Answer>(calls: &[Call], mut make: impl FnMut(Call, &mut [u8]) -> Answer) -> u64 {
    let (mut log, mut checksum) = ([0; LOG_LENGTH], Checksum::default());
    for &call in calls {
        let _ = make(call, &mut log);
        checksum.add_lines(&log);
    }
    checksum.number()
}

/// Loads a document and makes the calls on it; the checksum of their lines.
type Run = fn(&[u8], &[Call]) -> u64;

/// The session goes into each call by value and comes back by value, as whoever embeds the player
/// hands it over.
fn run_player(document: &[u8], calls: &[Call]) -> u64 {
    let (mut session, _) = player::Session::load(document);
    run(calls, |call, log| session.call(call, log))
}

/// The second engine on its own session, which is never broken and is not checked.
fn run_second(document: &[u8], calls: &[Call]) -> u64 {
    let mut session = load(document).expect("the document loads");
    run(calls, |call, log| session.call(call, log))
}

/// The second engine on a written session, which it checks at each call as the player does.
fn run_second_checked(document: &[u8], calls: &[Call]) -> u64 {
    let (mut session, _) = WrittenSession::load(document);
    run(calls, |call, log| session.call(call, log))
}

fn timed<T>(run: impl FnOnce() -> T) -> (Duration, T) {
    let start = Instant::now();
    let answer = run();
    (start.elapsed(), answer)
}

/// Makes the calls on all engines in this process, by turns; the best of some rounds each.
fn engine_times<const RUNS: usize>(
    runs: [Run; RUNS],
    document: &[u8],
    calls: &[Call],
) -> [Duration; RUNS] {
    let mut best = [Duration::MAX; RUNS];
    let mut checksums = [0; RUNS];
    for _ in 0..ROUNDS {
        for (place, run) in runs.iter().enumerate() {
            let (time, checksum) = timed(|| run(document, calls));
            best[place] = best[place].min(time);
            checksums[place] = checksum;
        }
    }
    assert!(checksums.iter().all(|&checksum| checksum == checksums[0]), "the logs differ");
    best
}

fn micros(time: Duration) -> f64 {
    time.as_secs_f64() * 1e6
}

fn ratio(time: Duration, other: Duration) -> f64 {
    time.as_secs_f64() / other.as_secs_f64()
}

fn compare(name: &str, document: &[u8], script: &[u8]) {
    let calls = calls_of(script);
    let micros = |time| micros(time) / calls.len() as f64;
    let [program, second_program] = program_times(document, script);
    println!(
        "{name}, as programs on files: printed_run {:.2} µs a call, second engine {:.2} µs a call; \
         printed_run / second = {:.2}",
        micros(program),
        micros(second_program),
        ratio(program, second_program)
    );
    let (lines, firings) = lines_and_firings(document, &calls);
    println!("{name}, in one process: {} calls, {lines} lines, {firings} firings", calls.len());
    let [player, second, checked] =
        engine_times([run_player, run_second, run_second_checked], document, &calls);
    println!("  player                       {:8.2} µs a call", micros(player));
    println!(
        "  second engine, checked       {:8.2} µs a call; player / second = {:.2}",
        micros(checked),
        ratio(player, checked)
    );
    println!(
        "  second engine, not checked   {:8.2} µs a call; player / second = {:.2}",
        micros(second),
        ratio(player, second)
    );
    let reads = read_time(document, &calls) * calls.len() as u32;
    println!(
        "  the player's read            {:8.2} µs, {:.0} % of its time a call; little but the session \
         check",
        micros(reads),
        100.0 * ratio(reads, player)
    );
}

/// What the script logs, so that a report in which nothing happens is seen.
fn lines_and_firings(document: &[u8], calls: &[Call]) -> (usize, usize) {
    let mut session = load(document).expect("the document loads");
    let mut log = [0; LOG_LENGTH];
    let (mut lines, mut firings) = (0, 0);
    for &call in calls {
        firings += session.call(call, &mut log).expect("every call is accepted");
        lines += lines_of(&log).len();
    }
    (lines, firings)
}

/// The time of one read in the middle of the script.
fn read_time(document: &[u8], calls: &[Call]) -> Duration {
    const TIMES: u32 = 20_000;
    let (mut session, loaded) = player::Session::load(document);
    loaded.expect("the document loads");
    for &call in &calls[..calls.len().min(1_001)] {
        let _ = session.call(call, &mut [0; LOG_LENGTH]);
    }
    let reads = |_| timed(|| (0..TIMES).filter(|_| session.read(1, 0).is_ok()).count() as u64);
    let reads: Vec<_> = (0..ROUNDS).map(reads).collect();
    assert!(reads.iter().all(|&(_, found)| found == u64::from(TIMES)));
    reads.iter().map(|&(time, _)| time).min().expect("there are rounds") / TIMES
}

/// Makes a call on the document's new session; the time of the call alone, and its answer.
type MakeCall = fn(&[u8], Call, &mut [u8]) -> (Duration, player::Answer);

fn call_player(document: &[u8], call: Call, log: &mut [u8]) -> (Duration, player::Answer) {
    let (mut session, _) = player::Session::load(document);
    timed(|| session.call(call, log))
}

/// The second engine on its own session, which it does not check.
fn call_second(document: &[u8], call: Call, log: &mut [u8]) -> (Duration, player::Answer) {
    let mut session = load(document).expect("the document loads");
    timed(|| session.call(call, log).map_err(Refusal::number))
}

/// The second engine on a written session, which it checks as the player does.
fn call_second_checked(document: &[u8], call: Call, log: &mut [u8]) -> (Duration, player::Answer) {
    let (mut session, _) = WrittenSession::load(document);
    timed(|| session.call(call, log).map_err(Refusal::number))
}

/// What the player and the second engine take, checked and not, with the ratios.
fn times_and_ratios([player, second, checked]: [Duration; 3], calls: usize) -> String {
    let micros = |time| micros(time) / calls as f64;
    format!(
        "player {:.2} µs, second engine {:.2} µs, checked {:.2} µs; player / second = {:.2}, \
         checked {:.2}",
        micros(player),
        micros(second),
        micros(checked),
        ratio(player, second),
        ratio(player, checked)
    )
}

/// Makes one call of key 0 on all engines, by turns, with room for so many lines, and sees that it
/// answers this and logs as many lines; the best of some rounds each.
fn compare_call(name: &str, document: &[u8], room: usize, expected: (player::Answer, usize)) {
    const ENGINES: [MakeCall; 3] = [call_player, call_second, call_second_checked];
    let mut best = [Duration::MAX; 3];
    let mut logs = [(); 3].map(|()| vec![0; 4 * room]);
    for _ in 0..ROUNDS {
        for (place, make_call) in ENGINES.iter().enumerate() {
            let log = &mut logs[place];
            let (time, answer) = make_call(document, Call::Key { code: 0 }, log);
            best[place] = best[place].min(time);
            assert_eq!((answer, lines_of(log).len()), expected, "{name}");
        }
    }
    assert!(logs.iter().all(|log| *log == logs[0]), "{name}: the logs differ");
    println!("  {name}: {}", times_and_ratios(best, 1));
}

/// The slowest calls that were found.
fn compare_slow_calls() {
    println!("slow calls, one each, in one process:");
    let fired = |lines| (Ok(FIRINGS_ON_EIGHT_SETS), lines);
    compare_call(
        "1,984 starts of a switch with 64 binds on a rule 31 deep",
        &switch_starts(),
        LINES_OF_SWITCH_STARTS,
        fired(LINES_OF_SWITCH_STARTS),
    );
    compare_call(
        "63,488 guards 31 deep",
        &deep_guards(),
        LINES_OF_DEEP_GUARDS,
        fired(LINES_OF_DEEP_GUARDS),
    );
    let (name, lines) =
        ("249 firings, 248 of 8 starts and stops of 63 media", LINES_OF_MEDIA_STARTS_AND_STOPS);
    let document = media_starts_and_stops(255);
    compare_call(name, &document, lines, fired(lines));
    compare_call(
        &format!("{name}, refused 12 at the last line"),
        &document,
        lines - 1,
        (Err(12), 0),
    );
    compare_call(&format!("{name}, refused 12 early"), &document, 512, (Err(12), 0));
    compare_call(
        &format!("{name}, refused 11 at the second firing"),
        &media_starts_and_stops(1),
        lines,
        (Err(11), 0),
    );
}

/// Starts, keys and stops by turns on a report of this size, on all engines.
fn compare_size(name: &str, number: usize, size: Size) {
    const TURNS: usize = 1_000;
    let document = report_of_size(size);
    let calls = calls_of(&script_of_turns(TURNS));
    let logged = lines_and_firings(&document, &calls);
    assert_eq!(logged, (TURNS * lines_of_turn(size), TURNS * size.firings), "{name} {number}");
    let times = engine_times([run_player, run_second, run_second_checked], &document, &calls);
    println!("  {name:8} {number:3}: {}", times_and_ratios(times, calls.len()));
}

/// One number of a report varies at a time.
fn compare_sizes() {
    // 255 firings need 38 links.
    let size = Size { media: 32, anchors: 32, links: 38, firings: 0 };
    println!(
        "growth, in one process: starts, keys and stops by turns, with {} media, {} anchors, \
         {} links and {} firings of the key but for",
        size.media, size.anchors, size.links, size.firings
    );
    for media in [1, 16, 32, 63] {
        compare_size("media", media.into(), Size { media, ..size });
    }
    for anchors in [0, 32, 64, 128] {
        compare_size("anchors", anchors.into(), Size { anchors, ..size });
    }
    for links in [0, 16, 32, 64] {
        compare_size("links", links, Size { links, ..size });
    }
    for firings in [0, 16, 64, 255] {
        compare_size("firings", firings, Size { firings, ..size });
    }
}

fn main() {
    let arguments: Vec<_> = env::args_os().skip(1).collect();
    match &arguments[..] {
        [] => {
            compare("wide report", &wide_report(), &wide_script(50_000));
            compare("start and stop", &start_stop_report(), &start_stop_script(20_000));
            compare_slow_calls();
            compare_sizes();
        }
        [which, folder] if which == "second" => print_second(Path::new(folder)),
        _ => panic!("no arguments, or `second` and a folder"),
    }
}
