//! A station (document 02 §1): eight of the harness's destinations, each over the broker's own code. Numbers, names, hops and the
//! refusals 10, 2 and 3 are not in the broker: they are read from the papers here, and counted apart.

use std::fmt;

use super::arguments::SEQUENCE_MAX;
use super::callfile::{code, Call};
use super::dump::{self, Audits};
use super::engine::{refusal, rejected, Engine, Event};
use crate::broker::destination::Effect;
use super::held::Held;
use super::host::EntryNumbers;
use super::whole::Whole;

/// Destinations are numbered 0 to 7; this number is "none".
pub const PLACES: usize = 8;
const NO_NAME: u64 = PLACES as u64;
/// A dead letter is tried at so many destinations at most.
const HOPS: usize = 8;
/// The refusal of a number above 7, or of one that is not open.
pub const NOT_THERE: u8 = 10;
const LOST_MAX: u64 = (1 << 63) - 1;
/// Where an open has its dead-letter destination.
pub const NAME_AT: usize = 6;

/// A call's destination, and its code there.
pub fn place_of(call: &Call) -> (u64, u64) {
    (call.code / 256, call.code % 256)
}

/// A call for a destination.
pub fn placed(place: u64, call: &Call) -> Call {
    Call {
        code: call.code + 256 * place,
        ..*call
    }
}

/// What a destination sends.
pub struct Sent {
    pub place: usize,
    pub event: Event,
}

fn sent_at(place: usize, events: Vec<Event>) -> Vec<Sent> {
    events.into_iter().map(|event| Sent { place, event }).collect()
}

impl fmt::Display for Sent {
    fn fmt(&self, f: &mut fmt::Formatter<'_>) -> fmt::Result {
        let text = self.event.to_string();
        let (kind, numbers) = text.split_at(1);
        write!(f, "{kind} {}{numbers}", self.place)
    }
}

/// What a call returns.
pub struct StationReply {
    pub refusal: u8,
    pub answer: u64,
    pub sent: Vec<Sent>,
}

impl StationReply {
    fn refused(refusal: u8) -> StationReply {
        StationReply {
            refusal,
            answer: 0,
            sent: Vec::new(),
        }
    }
}

/// What the broker has decided, and what the papers.
#[derive(Clone, Copy, Default)]
pub struct Counts {
    /// Calls in all; of these, those that the broker has run, and those that the harness's destination has refused.
    calls: u64,
    run: u64,
    refused: u64,
    /// Opens and starts.
    opens: u64,
    starts: u64,
    /// The station's own refusals: 10, 2, 3.
    not_there: u64,
    not_sound: u64,
    arguments: u64,
    /// Dead letters, which are entries that the broker has returned.
    letters: u64,
    /// Those that the broker has stored, by hops, and the events that it sent then.
    stored: [u64; HOPS],
    stored_at_home: u64,
    sends: u64,
    /// Refusals of a destination that passed a letter on: 9, 14, 5, any other.
    no_calls: u64,
    over_share: u64,
    no_rows: u64,
    other: u64,
    /// Letters lost: none is named at once; later; at a destination that is not open; after eight hops.
    unnamed: u64,
    ended: u64,
    closed: u64,
    hops_over: u64,
}

impl Counts {
    /// A destination has refused a letter.
    fn passed_on(&mut self, refusal: u8) {
        match refusal {
            refusal::CALL_LIMIT => self.no_calls += 1,
            refusal::SHARE => self.over_share += 1,
            refusal::NO_ROWS => self.no_rows += 1,
            _ => self.other += 1,
        }
    }

    /// A line for each count.
    pub fn lines(&self) -> String {
        let mut lines: Vec<(String, u64)> = [
            ("calls", self.calls),
            ("rust-run", self.run),
            ("rust-letters", self.letters),
            ("rust-sends-of-letters", self.sends),
            ("destination-refused", self.refused),
            ("opens", self.opens),
            ("starts", self.starts),
            ("refused-10", self.not_there),
            ("refused-2", self.not_sound),
            ("refused-3", self.arguments),
            ("stored-at-home", self.stored_at_home),
            ("passed-on-9", self.no_calls),
            ("passed-on-14", self.over_share),
            ("passed-on-5", self.no_rows),
            ("passed-on-other", self.other),
            ("lost-none-named", self.unnamed),
            ("lost-chain-ends", self.ended),
            ("lost-not-open", self.closed),
            ("lost-eight-hops", self.hops_over),
        ]
        .map(|(name, count)| (name.to_string(), count))
        .to_vec();
        for (hops, count) in self.stored.iter().enumerate() {
            lines.push((format!("rust-stored-at-hop-{}", hops + 1), *count));
        }
        lines
            .iter()
            .map(|(name, count)| format!("{name} {count}\n"))
            .collect()
    }
}

pub struct Station {
    engines: Vec<Engine>,
    /// The dead-letter destination that each named at its open.
    names: [u64; PLACES],
    /// The next sequence number; 0 before a start, when nothing is in range.
    next: u64,
    lost: u64,
    pub counts: Counts,
}

impl Default for Station {
    fn default() -> Station {
        Station::new()
    }
}

impl Station {
    pub fn new() -> Station {
        Station {
            engines: (0..PLACES).map(|_| Engine::new()).collect(),
            names: [NO_NAME; PLACES],
            next: 0,
            lost: 0,
            counts: Counts::default(),
        }
    }

    pub fn engine(&mut self, place: usize) -> &mut Engine {
        &mut self.engines[place]
    }

    pub fn is_open(&self, place: usize) -> bool {
        self.engines[place].opened().is_some()
    }

    pub fn started(&self) -> bool {
        self.next > 0
    }

    pub fn next(&self) -> u64 {
        self.next
    }

    pub fn call(&mut self, call: &Call) -> StationReply {
        self.counts.calls += 1;
        let (place, code) = place_of(call);
        // "after 1 and before 2, a number above 7 or, open apart, one not open"; a start has none.
        if place >= PLACES as u64 {
            return self.not_there();
        }
        let at = place as usize;
        let own = Call { code, ..*call };
        match code {
            code::START => self.start(at, &own),
            code::OPEN => self.open(at, &own),
            _ if !self.is_open(at) => self.not_there(),
            // Before a start the next number is in no range.
            _ if !self.started() => {
                self.counts.not_sound += 1;
                StationReply::refused(refusal::NOT_SOUND)
            }
            code::ENQUEUE => self.enqueue(at, &own),
            _ => self.run(at, &own),
        }
    }

    /// A call that is known to be accepted, and its letters, which the first destination takes: the broker's own code alone, for times.
    pub fn replay(&mut self, call: &Call) -> u64 {
        let (place, code) = place_of(call);
        let at = place as usize;
        let mut own = Call { code, ..*call };
        if code == code::ENQUEUE {
            own.args[0] = self.next;
            self.next += 1;
        }
        let (answer, letters) = self.replay_at(at, &own);
        for letter in &letters {
            let stored = letter_call(rejected(letter), self.next, call.args[6]);
            self.next += 1;
            self.replay_at(self.names[at] as usize, &stored);
        }
        answer + letters.len() as u64
    }

    fn replay_at(&mut self, at: usize, call: &Call) -> (u64, Vec<Effect>) {
        let engine = &mut self.engines[at];
        let dest = &engine.opened().expect("it is open").dest;
        let done = engine.prepare(call).run(dest);
        engine.drop_sent();
        done
    }

    fn not_there(&mut self) -> StationReply {
        self.counts.not_there += 1;
        StationReply::refused(NOT_THERE)
    }

    fn wrong(&mut self) -> StationReply {
        self.counts.arguments += 1;
        StationReply::refused(refusal::ARGUMENTS)
    }

    /// Needs no sound state, and leaves none open. Its destination number is 0, and there is no limit yet.
    fn start(&mut self, at: usize, call: &Call) -> StationReply {
        if at != 0 || call.args.iter().any(|word| *word != 0) {
            return self.wrong();
        }
        self.engines.iter_mut().for_each(Engine::close);
        self.names = [NO_NAME; PLACES];
        self.next = 1;
        self.lost = 0;
        self.counts.starts += 1;
        StationReply::refused(refusal::NONE)
    }

    fn open(&mut self, at: usize, call: &Call) -> StationReply {
        let name = call.args[NAME_AT];
        if name > NO_NAME {
            return self.wrong();
        }
        let mut plain = *call;
        plain.args[NAME_AT] = 0;
        let reply = self.engines[at].call(&plain);
        if reply.refusal != refusal::NONE {
            self.counts.refused += 1;
            return StationReply::refused(reply.refusal);
        }
        self.names[at] = name;
        self.counts.opens += 1;
        StationReply::refused(refusal::NONE)
    }

    /// A direct enqueue carries no number and is given the station's next, which is taken when it is accepted. With none left that is
    /// one out of range.
    fn enqueue(&mut self, at: usize, call: &Call) -> StationReply {
        if call.args[0] != 0 {
            return self.wrong();
        }
        let mut numbered = *call;
        numbered.args[0] = self.next;
        let reply = self.run(at, &numbered);
        if reply.refusal == refusal::NONE {
            self.next += 1;
        }
        reply
    }

    /// The destination's own call with all its events, then its dead letters, one after the other.
    fn run(&mut self, at: usize, call: &Call) -> StationReply {
        let reply = self.engines[at].call(call);
        if reply.refusal != refusal::NONE {
            self.counts.refused += 1;
            return StationReply::refused(reply.refusal);
        }
        self.counts.run += 1;
        let mut sent = sent_at(at, reply.events);
        for entry in reply.rejected {
            assert_eq!(call.code, code::ACK, "only an acknowledgement rejects");
            // The acknowledgement's clock.
            sent.extend(self.letter(at, entry, call.args[6]));
        }
        StationReply {
            refusal: refusal::NONE,
            answer: reply.answer,
            sent,
        }
    }

    /// A dead letter takes its number once, before the first hop; with none left it is lost.
    fn letter(&mut self, home: usize, entry: EntryNumbers, clock: u64) -> Vec<Sent> {
        self.counts.letters += 1;
        let mut stored = None;
        if self.next <= SEQUENCE_MAX {
            let call = letter_call(entry, self.next, clock);
            self.next += 1;
            stored = self.forward(home, &call);
        }
        stored.unwrap_or_else(|| {
            self.lost = LOST_MAX.min(self.lost + 1);
            Vec::new()
        })
    }

    /// From destination to destination until one takes the letter: what that one sends, or nothing where the letter is lost.
    fn forward(&mut self, home: usize, call: &Call) -> Option<Vec<Sent>> {
        let mut name = self.names[home];
        for hop in 0..HOPS {
            let at = self.named(name, hop)?;
            let reply = self.engines[at].call(call);
            if reply.refusal == refusal::NONE {
                assert!(reply.rejected.is_empty(), "an enqueue rejects nothing");
                self.counts.stored[hop] += 1;
                self.counts.stored_at_home += u64::from(at == home);
                self.counts.sends += reply.events.len() as u64;
                return Some(sent_at(at, reply.events));
            }
            self.counts.passed_on(reply.refusal);
            name = self.names[at];
        }
        self.counts.hops_over += 1;
        None
    }

    /// The open destination of this name. Where none is named the letter is lost, and so it is where the one named is not open: that one
    /// refuses, and has named none.
    fn named(&mut self, name: u64, hop: usize) -> Option<usize> {
        let at = name as usize;
        if name == NO_NAME && hop == 0 {
            self.counts.unnamed += 1;
        } else if name == NO_NAME {
            self.counts.ended += 1;
        } else if !self.is_open(at) {
            self.counts.closed += 1;
        } else {
            return Some(at);
        }
        None
    }

    /// The bytes that all open destinations hold.
    pub fn bytes(&self) -> u64 {
        let opened = self.engines.iter().filter_map(|e| e.opened());
        opened.map(|o| Held::of(o, &Whole::of(o)).bytes()).sum()
    }

    /// The state line of each open destination, with its number before it.
    pub fn state_lines(&self) -> String {
        let opened = self
            .engines
            .iter()
            .enumerate()
            .filter_map(|(at, e)| Some((at, e.opened()?)));
        opened
            .map(|(at, o)| format!("@{at} {}", dump::line(o, Audits::Summed)))
            .collect()
    }

    /// Each open destination's counters, then the station's own numbers.
    pub fn last_lines(&self) -> String {
        let mut lines = String::new();
        for at in (0..PLACES).filter(|at| self.is_open(*at)) {
            let s = self.engines[at].stats();
            lines.push_str(&format!(
                "= {at} {} {} {} {} {}\n",
                s.enqueued, s.dequeued, s.expired, s.discarded, s.dispatched
            ));
        }
        lines.push_str(&format!("s {} {} 0 {}\n", self.next, self.lost, self.bytes()));
        lines
    }
}

/// A dead letter as an enqueue: a new number, the acknowledgement's clock, and all else as it was.
fn letter_call(entry: EntryNumbers, number: u64, clock: u64) -> Call {
    let args = [
        number,
        entry.expiration as u64,
        u64::from(entry.persistent),
        entry.connection,
        entry.match_word,
        i64::from(entry.redelivery) as u64,
        clock,
        entry.size,
    ];
    Call::new(code::ENQUEUE, &args)
}
