//! stationspeed [RUNS [CALLS]]: replays the same calls through a station of the broker's Rust destinations and through the proved station's library,
//! and prints nanoseconds a call, as a table.
//!
//! So many destinations are open, each a queue with so many rows in use, and get their calls in turn: an acknowledgement, an enqueue, the dispatch after each. With
//! "letters" each 16th acknowledgement rejects its entry, which goes to the next destination as a dead letter, and has no enqueue after it. All calls are accepted by
//! both sides, and compared in a run that is not timed.
//! "Rust" is the broker's own code for the call and its letters, from their words, as `speed` times it. "Batch" is the library's entry for many calls, 256 at a
//! time. "Plain" are the same calls of one destination, without letters, by the library of a destination; "count SIDE ROWS" makes one run for a tool that counts instructions.

use std::collections::VecDeque;
use std::env;
use std::hint::black_box;
use std::process::ExitCode;
use std::time::{Duration, Instant};

use destination_oracle::broker::destination::probe;
use destination_oracle::harness::callfile::{ack_bit, code, Call};
use destination_oracle::harness::engine::{refusal, Event};
use destination_oracle::harness::host::{Id, NO_SELECTOR};
use destination_oracle::harness::library::{event_words, CallWords, Lent, Outcome};
use destination_oracle::harness::station::{place_of, placed, Station, NAME_AT};
use destination_oracle::harness::stationlib::{LentStation, EVENTS};
use destination_oracle::harness::times::{best_and_median, nanoseconds, ratio};
use destination_oracle::openwire::model::ack_type;

const OPEN: [usize; 2] = [1, 8];
const ROWS: [usize; 2] = [8, 64];
const CONSUMERS: u64 = 4;
const PREFETCH: u64 = 8;
/// So many calls run between two looks at the clock.
const PART: usize = 256;
const BATCH_EVENTS: usize = EVENTS + 16 * PART;

struct Traffic {
    before: Vec<Call>,
    timed: Vec<Call>,
}

/// A station to which the calls are made as they are written.
struct Flow {
    station: Station,
    calls: Vec<Call>,
    /// What each destination has sent that was not acknowledged, oldest first.
    sent: Vec<VecDeque<(Id, u64)>>,
    clock: u64,
}

impl Flow {
    fn open(open: usize, rows: usize) -> Flow {
        let mut flow = Flow {
            station: Station::new(),
            calls: Vec::new(),
            sent: vec![VecDeque::new(); open],
            clock: 1000,
        };
        flow.call(0, code::START, &[]);
        for at in 0..open {
            let mut args = [0, 0, 1 << 40, flow.clock, 0, 0, 0];
            args[NAME_AT] = ((at + 1) % open) as u64;
            flow.call(at, code::OPEN, &args);
            for k in 0..CONSUMERS {
                flow.call(at, code::JOIN, &[1 + k % 2, 1, k, PREFETCH, NO_SELECTOR, 0, flow.clock]);
            }
            while flow.rows_used(at) < rows {
                flow.enqueue(at);
            }
        }
        flow
    }

    fn rows_used(&mut self, at: usize) -> usize {
        self.station.engine(at).opened().map_or(0, |o| probe::rows_used(&o.dest))
    }

    fn call(&mut self, at: usize, code: u64, args: &[u64]) {
        let call = placed(at as u64, &Call::new(code, args));
        let reply = self.station.call(&call);
        assert_eq!(reply.refusal, refusal::NONE, "timed calls are accepted");
        for sent in reply.sent {
            if let Event::Message { id, sequence, .. } = sent.event {
                self.sent[sent.place].push_back((id, sequence));
            }
        }
        self.calls.push(call);
        self.clock += 1;
    }

    fn enqueue(&mut self, at: usize) {
        let number = self.station.next();
        self.call(at, code::ENQUEUE, &[0, 0, 1, 7, number * 8, 0, self.clock]);
    }

    fn ack_oldest(&mut self, at: usize, kind: u8) {
        let (id, sequence) = self.sent[at].pop_front().expect("something is in flight");
        let args = [id[0], id[1], id[2], u64::from(kind) | ack_bit::FIRST | ack_bit::LAST, sequence, sequence, self.clock];
        self.call(at, code::ACK, &args);
    }

    fn timed(mut self, calls: usize, letters: bool) -> Traffic {
        let before = std::mem::take(&mut self.calls);
        let mut turn = 0;
        while self.calls.len() < calls {
            let at = turn % self.sent.len();
            if letters && turn / self.sent.len() % 16 == 15 {
                self.ack_oldest(at, ack_type::POISON);
            } else {
                self.ack_oldest(at, ack_type::INDIVIDUAL);
                self.enqueue(at);
            }
            turn += 1;
        }
        Traffic {
            before,
            timed: self.calls,
        }
    }
}

fn main() -> ExitCode {
    let arguments: Vec<String> = env::args().skip(1).collect();
    let number = |k: usize, other: usize| arguments.get(k).map_or(Some(other), |a| a.parse().ok());
    if let [count, side, rows] = &arguments[..] {
        if count == "count" {
            return counted(side, rows.parse().unwrap_or(8));
        }
    }
    let (Some(runs @ 1..), Some(calls @ 1..), true) = (number(0, 15), number(1, 4096), arguments.len() <= 2) else {
        eprintln!("usage: stationspeed [RUNS [CALLS]]");
        return ExitCode::from(64);
    };
    println!("{runs} runs of {calls} calls, ns a call, best (median)\n");
    println!("| Calls | Open | Rows each | Rust | Station | of Rust | Batch | of Rust | of station | Plain | station of plain | batch of plain |");
    println!("|---|---|---|---|---|---|---|---|---|---|---|---|");
    for letters in [false, true] {
        for open in OPEN {
            for rows in ROWS {
                line(letters, open, rows, runs, calls);
            }
        }
    }
    ExitCode::SUCCESS
}

fn line(letters: bool, open: usize, rows: usize, runs: usize, calls: usize) {
    let traffic = Flow::open(open, rows).timed(calls, letters);
    compare(&traffic);
    let mut times = [const { Vec::new() }; 4];
    // The first run warms the buffers and the caches.
    for run in 0..=runs {
        let these = [rust(&traffic), single(&traffic), batch(&traffic), plain(&traffic, open == 1 && !letters)];
        if run > 0 {
            for (list, parts) in times.iter_mut().zip(these) {
                list.push(parts);
            }
        }
    }
    let [rust, single, batch, plain] = times.map(|runs| best_and_median(&runs, traffic.timed.len()));
    let mut cells = vec![
        nanoseconds(rust),
        nanoseconds(single),
        ratio(single, rust),
        nanoseconds(batch),
        ratio(batch, rust),
        ratio(batch, single),
    ];
    if open == 1 && !letters {
        cells.extend([nanoseconds(plain), ratio(single, plain), ratio(batch, plain)]);
    } else {
        cells.extend(["-".to_string(), "-".to_string(), "-".to_string()]);
    }
    let name = if letters { "letters" } else { "queue" };
    println!("| {name} | {open} | {rows} | {} |", cells.join(" | "));
}

/// One run of a side, for a tool that counts instructions.
fn counted(side: &str, rows: usize) -> ExitCode {
    let traffic = Flow::open(if side == "station8" { 8 } else { 1 }, rows).timed(4096, false);
    match side {
        "plain" => black_box(plain(&traffic, true)),
        "batch" => black_box(batch(&traffic)),
        _ => black_box(single(&traffic)),
    };
    ExitCode::SUCCESS
}

/// Both sides, call by call: refusal, answer and events; and a batch.
fn compare(traffic: &Traffic) {
    let mut station = Station::new();
    let mut lent = LentStation::new();
    let mut each = Vec::new();
    for (index, call) in traffic.before.iter().chain(&traffic.timed).enumerate() {
        let reply = station.call(call);
        let outcome = lent.call(call);
        let named = |place: usize, event: &Event| {
            let mut words = event_words(event);
            words[0] += 256 * place as u64;
            words
        };
        let events: Vec<_> = reply.sent.iter().map(|s| named(s.place, &s.event)).collect();
        assert_eq!(outcome.refusal, u64::from(reply.refusal), "call {index}: refusal");
        assert_eq!(outcome.answer, reply.answer, "call {index}: answer");
        assert_eq!(lent.events[..outcome.events], events[..], "call {index}: events");
        each.push(outcome);
    }
    let mut many = filled(traffic);
    many.events = vec![[0; 6]; BATCH_EVENTS];
    let words: Vec<CallWords> = traffic.timed.iter().map(CallWords::from).collect();
    let mut outcomes = vec![Outcome::default(); PART];
    for (part, alone) in words.chunks(PART).zip(each[traffic.before.len()..].chunks(PART)) {
        let done = many.calls(part, &mut outcomes);
        assert_eq!(done.calls, part.len(), "there is room for the events");
        assert_eq!(outcomes[..part.len()], *alone, "a batch");
    }
    assert!(many.heads == lent.heads && many.own == lent.own, "a batch leaves the same");
}

fn filled(traffic: &Traffic) -> LentStation {
    let mut lent = LentStation::new();
    for call in &traffic.before {
        lent.call(call);
    }
    lent
}

fn rust(traffic: &Traffic) -> Vec<Duration> {
    let mut station = Station::new();
    for call in &traffic.before {
        station.call(call);
    }
    let mut times = Vec::new();
    for part in traffic.timed.chunks(PART) {
        let mut sum = 0;
        let start = Instant::now();
        for call in part {
            sum += station.replay(call);
        }
        times.push(start.elapsed());
        black_box(sum);
    }
    times
}

fn single(traffic: &Traffic) -> Vec<Duration> {
    let mut lent = filled(traffic);
    let calls: Vec<(u64, CallWords)> = traffic.timed.iter().map(numbered).collect();
    let mut times = Vec::new();
    for part in calls.chunks(PART) {
        let mut sum = 0;
        let start = Instant::now();
        for (number, call) in part {
            let outcome = lent.call_at(*number, *call);
            sum += outcome.answer + outcome.refusal;
        }
        times.push(start.elapsed());
        black_box(sum);
    }
    times
}

fn numbered(call: &Call) -> (u64, CallWords) {
    let (number, plain) = place_of(call);
    (number, CallWords { code: plain, words: call.args })
}

fn batch(traffic: &Traffic) -> Vec<Duration> {
    let mut lent = filled(traffic);
    lent.events = vec![[0; 6]; BATCH_EVENTS];
    let words: Vec<CallWords> = traffic.timed.iter().map(CallWords::from).collect();
    let mut outcomes = vec![Outcome::default(); PART];
    let mut times = Vec::new();
    for part in words.chunks(PART) {
        let start = Instant::now();
        let done = lent.calls(part, &mut outcomes);
        times.push(start.elapsed());
        assert_eq!(done.calls, part.len(), "there is room for the events");
    }
    times
}

/// The same calls of destination 0 by the library of a destination: a name is none of its words, and an enqueue carries its number.
fn plain(traffic: &Traffic, wanted: bool) -> Vec<Duration> {
    if !wanted {
        return vec![Duration::ZERO];
    }
    let mut next = 1;
    let mut alone = |call: &Call| {
        let mut words = CallWords::from(call);
        if call.code == code::OPEN {
            words.words[NAME_AT] = 0;
        } else if call.code == code::ENQUEUE {
            words.words[0] = next;
            next += 1;
        }
        words
    };
    let mut lent = Lent::new();
    for call in traffic.before.iter().filter(|call| call.code != code::START) {
        lent.call(alone(call));
    }
    let calls: Vec<CallWords> = traffic.timed.iter().map(alone).collect();
    let mut times = Vec::new();
    for part in calls.chunks(PART) {
        let mut sum = 0;
        let start = Instant::now();
        for call in part {
            let outcome = lent.call(*call);
            sum += outcome.refusal;
        }
        times.push(start.elapsed());
        assert_eq!(sum, 0, "timed calls are accepted");
    }
    times
}
