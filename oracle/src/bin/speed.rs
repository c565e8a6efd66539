//! speed [RUNS [CALLS [TRAFFIC [ROWS]]]]: replays the same calls through the broker's Rust and through the proved
//! engine's library, and prints nanoseconds a call, as a table.
//!
//! "Rust" replays the calls from their words, as the library does: it makes the broker's message, identifiers and
//! acknowledgement, runs the call and takes what was sent. For "prepared" they are made beforehand, and the sends are taken
//! between the timed parts. All calls are accepted by both sides, and compared in a run that is not timed.
//! "Batch" is the library's entry for many calls, 256 at a time, which checks the state once for all.
//! "Check" is a call with an unknown code, which is refused once the state was found sound.
//! "Read" and "move" are what the machine itself takes with the rows: a plain loop over the four words that the check asks of
//! each, and all but the first moved up by one place, as an acknowledgement of the first does.

use std::env;
use std::hint::black_box;
use std::process::ExitCode;
use std::time::{Duration, Instant};

use destination_oracle::harness::callfile::Call;
use destination_oracle::harness::engine::{Engine, Prepared};
use destination_oracle::harness::library::{CallWords, Lent, Outcome, Row, EVENTS};
use destination_oracle::harness::sides;
use destination_oracle::harness::times::{best_and_median, nanoseconds, ratio};
use destination_oracle::harness::traffic::{Traffic, PROFILES};

const ROWS: [usize; 4] = [8, 64, 256, 512];

/// So many calls run between two looks at the clock.
const PART: usize = 256;

/// Room for the events of a part's calls.
const BATCH_EVENTS: usize = EVENTS + 16 * PART;

const UNKNOWN: CallWords = CallWords {
    code: u64::MAX,
    words: [0; 8],
};

fn main() -> ExitCode {
    let arguments: Vec<String> = env::args().skip(1).collect();
    let number = |k: usize, other| arguments.get(k).map_or(Some(other), |a: &String| a.parse().ok());
    let (Some(runs @ 1..), Some(calls @ 1..), Some(only), true) =
        (number(0, 15), number(1, 4096), number(3, 0), arguments.len() <= 4)
    else {
        eprintln!("usage: speed [RUNS [CALLS [TRAFFIC [ROWS]]]]");
        return ExitCode::from(64);
    };
    println!("{runs} runs of {calls} calls, ns a call, best (median)\n");
    println!("| Traffic | Rows | Rust | Prepared | Library | of Rust | of prepared | Batch | of Rust | of prepared | Check | Read | Move |");
    println!("|---|---|---|---|---|---|---|---|---|---|---|---|---|");
    for (name, make) in PROFILES {
        if arguments.get(2).is_none_or(|wanted| wanted == name) {
            for rows in ROWS.into_iter().filter(|rows| only == 0 || only == *rows) {
                line(name, rows, &make(rows, calls), runs);
            }
        }
    }
    ExitCode::SUCCESS
}

fn line(name: &str, rows: usize, traffic: &Traffic, runs: usize) {
    let all: Vec<Call> = [&traffic.before[..], &traffic.timed[..]].concat();
    if let Some(d) = sides::first_difference(&all) {
        panic!("{name}, {rows} rows, call {}: {} differs", d.index, d.what);
    }
    let mut times = [const { Vec::new() }; 7];
    // The first run warms the buffers and the caches.
    for run in 0..=runs {
        let these = [
            replayed(traffic),
            prepared(traffic),
            library(traffic),
            batch(traffic),
            check(traffic),
            with_rows(traffic, rows, read),
            with_rows(traffic, rows, move_up),
        ];
        if run > 0 {
            for (list, parts) in times.iter_mut().zip(these) {
                list.push(parts);
            }
        }
    }
    let [rust, prepared, library, batch, check, read, move_up] = times.map(|runs| best_and_median(&runs, traffic.timed.len()));
    let cells = [
        nanoseconds(rust),
        nanoseconds(prepared),
        nanoseconds(library),
        ratio(library, rust),
        ratio(library, prepared),
        nanoseconds(batch),
        ratio(batch, rust),
        ratio(batch, prepared),
        nanoseconds(check),
        nanoseconds(read),
        nanoseconds(move_up),
    ];
    println!("| {name} | {rows} | {} |", cells.join(" | "));
}

/// The broker after the calls that are not timed.
fn broker(traffic: &Traffic) -> Engine {
    let mut engine = Engine::new();
    for call in &traffic.before {
        engine.call(call);
    }
    engine
}

fn replayed(traffic: &Traffic) -> Vec<Duration> {
    let mut engine = broker(traffic);
    let mut times = Vec::new();
    for part in traffic.timed.chunks(PART) {
        let mut sum = 0;
        let start = Instant::now();
        for call in part {
            let dest = &engine.opened().expect("the first call opens").dest;
            let (answer, effects) = engine.prepare(call).run(dest);
            sum += answer + effects.len() as u64;
            engine.drop_sent();
        }
        times.push(start.elapsed());
        black_box(sum);
    }
    times
}

fn prepared(traffic: &Traffic) -> Vec<Duration> {
    let mut engine = broker(traffic);
    let mut prepared: Vec<Prepared> = traffic.timed.iter().map(|c| engine.prepare(c)).collect();
    let mut times = Vec::new();
    let mut letters = Vec::new();
    for part in prepared.chunks_mut(PART) {
        let dest = &engine.opened().expect("the first call opens").dest;
        let mut sum = 0;
        let start = Instant::now();
        for call in part {
            let (answer, effects) = call.run(dest);
            sum += answer;
            if !effects.is_empty() {
                letters.push(effects);
            }
        }
        times.push(start.elapsed());
        black_box(sum);
        letters.clear();
        engine.drop_sent();
    }
    times
}

fn library(traffic: &Traffic) -> Vec<Duration> {
    let mut lent = filled(traffic);
    let words: Vec<CallWords> = traffic.timed.iter().map(CallWords::from).collect();
    let mut times = Vec::new();
    for part in words.chunks(PART) {
        let mut sum = 0;
        let start = Instant::now();
        for call in part {
            let outcome = lent.call(*call);
            sum += outcome.answer + outcome.refusal;
        }
        times.push(start.elapsed());
        black_box(sum);
    }
    times
}

fn batch(traffic: &Traffic) -> Vec<Duration> {
    let mut lent = filled(traffic);
    lent.events = vec![[0; 6]; BATCH_EVENTS];
    let words: Vec<CallWords> = traffic.timed.iter().map(CallWords::from).collect();
    let mut outcomes = vec![Outcome::default(); PART];
    let mut times = Vec::new();
    for part in words.chunks(PART) {
        let start = Instant::now();
        let done = lent.calls(part, &mut outcomes);
        times.push(start.elapsed());
        assert_eq!(done.calls, part.len(), "there is room for the events");
    }
    times
}

/// As many refused calls.
fn check(traffic: &Traffic) -> Vec<Duration> {
    let mut lent = filled(traffic);
    let mut times = Vec::new();
    for part in traffic.timed.chunks(PART) {
        let mut sum = 0;
        let start = Instant::now();
        for _ in part {
            sum += lent.call(black_box(UNKNOWN)).refusal;
        }
        times.push(start.elapsed());
        assert_eq!(sum, 3 * part.len() as u64, "the state is sound");
    }
    times
}

/// As many turns with the first rows of the state at the beginning.
fn with_rows(traffic: &Traffic, rows: usize, turn: fn(&mut [Row]) -> bool) -> Vec<Duration> {
    let mut lent = filled(traffic);
    let mut times = Vec::new();
    for part in traffic.timed.chunks(PART) {
        let start = Instant::now();
        for _ in part {
            black_box(turn(black_box(&mut lent.rows[..rows])));
        }
        times.push(start.elapsed());
    }
    times
}

/// Whether the numbers differ from row to row and the words are in range; four rows a turn, as the check does.
fn read(rows: &mut [Row]) -> bool {
    let mut last = 0;
    for four in rows.chunks_exact(4) {
        let mut marks = 0;
        let mut wide = 0;
        let mut same = false;
        for row in four {
            same |= row[0] == last;
            marks |= row[2];
            wide |= row[5].wrapping_add(1 << 31) | row[9];
            last = row[0];
        }
        if same | (marks > 1) | (wide >> 32 != 0) {
            return false;
        }
    }
    true
}

fn move_up(rows: &mut [Row]) -> bool {
    rows.copy_within(1.., 0);
    true
}

fn filled(traffic: &Traffic) -> Lent {
    let mut lent = Lent::new();
    for call in &traffic.before {
        lent.call(CallWords::from(call));
    }
    lent
}
