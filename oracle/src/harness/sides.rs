//! The same calls through the broker and through the library, compared after each call: refusal,
//! answer, events and the whole state. A refused call must leave every lent buffer as it was. Now and
//! then a call without a code comes between, and the queries are compared. The same calls in batches
//! must leave what they leave one by one.

use super::arguments;
use super::callfile::Call;
use super::dump::{self, Audits};
use super::engine::{refusal, Engine, Opened, Reply, Uncoded};
use super::held::Held;
use super::library::{self, Asked, CallWords, Counters, EventRow, Lent, Line, Outcome, EVENTS, PAGE_LINES};
use super::outlook::{self, Outlooks};
use super::random::Random;
use super::text;
use super::whole::Whole;
use crate::broker::destination::probe;

/// After so many calls it is checked again that what the port leaves out follows from the rest.
const DERIVED_EVERY: usize = 64;

/// After so many calls the queries are compared, and a call without a code is made.
const QUERIES_EVERY: usize = 5;
const DISCARDED_EVERY: usize = 17;
const EXPIRED_EVERY: usize = 23;

/// Events a batch may write before it has to stop.
const BATCH_EVENTS: usize = EVENTS + 60;

/// Both sides.
#[derive(Default)]
pub struct Sides {
    engine: Engine,
    pub lent: Lent,
    calls: usize,
    pub outlooks: Outlooks,
}

/// What both sides have made of one call.
pub struct Both {
    pub reply: Reply,
    pub outcome: Outcome,
    /// The library's bytes held.
    pub bytes: Asked,
    /// The broker's state and bytes held, once a destination is open.
    pub whole: Option<Whole>,
    pub held: Option<Held>,
    /// The buffers before a call that the broker's side refuses.
    before: Option<Lent>,
}

impl Sides {
    pub fn call(&mut self, call: &Call) -> Both {
        let reply = self.engine.call(call);
        let before = (reply.refusal != refusal::NONE).then(|| self.lent.clone());
        let outcome = self.lent.call(CallWords::from(call));
        self.calls += 1;
        self.both(reply, outcome, before)
    }

    /// Releases by the broker's call for both halves, and first and second halves that the harness did alone.
    pub fn halves(&self) -> [u64; 3] {
        let [_, both, first, second] = self.engine.halves;
        [both, first, second]
    }

    /// Whether the share is below 512 and shares suffice for this enqueue.
    pub fn suffices(&self, call: &Call) -> bool {
        self.engine.opened().is_some_and(|o| o.share < 512) && self.engine.suffices(call)
    }

    /// Enqueues that bring a topic's list over its limit, and those that the harness has read itself.
    pub fn surplus(&self) -> [u64; 6] {
        self.engine.surplus.numbers()
    }

    fn both(&self, reply: Reply, outcome: Outcome, before: Option<Lent>) -> Both {
        let opened = self.engine.opened();
        if self.calls.is_multiple_of(DERIVED_EVERY) {
            if let Some(Err(what)) = opened.map(|o| probe::check_derived(&o.dest)) {
                panic!("{what}");
            }
        }
        let whole = opened.map(Whole::of);
        let held = opened.zip(whole.as_ref()).map(|(o, w)| Held::of(o, w));
        Both {
            reply,
            outcome,
            bytes: self.lent.bytes_held(),
            whole,
            held,
            before,
        }
    }

    /// What differs between two calls, the states being the same: a query now and then, or a call
    /// without a code.
    pub fn between(&mut self, call: &Call) -> Option<&'static str> {
        if self.calls.is_multiple_of(QUERIES_EVERY) {
            if let Some(opened) = self.engine.opened() {
                let found = queries_differ(opened, &self.lent, call.args[6]);
                let clock = arguments::clock_place(call.code).map_or(0, |at| call.args[at]);
                let what = found.or_else(|| outlook::differs(opened, &self.lent, clock, &mut self.outlooks));
                if what.is_some() {
                    return what;
                }
            }
        }
        if self.calls.is_multiple_of(DISCARDED_EVERY) {
            return self.uncoded(Uncoded::Discarded, Lent::add_discarded);
        }
        if self.calls.is_multiple_of(EXPIRED_EVERY) {
            return self.uncoded(Uncoded::Expired, Lent::expired_before_storing);
        }
        None
    }

    fn uncoded(&mut self, call: Uncoded, library: fn(&mut Lent) -> Outcome) -> Option<&'static str> {
        let kept = self.lent.clone();
        let reply = self.engine.uncoded(call);
        let before = (reply.refusal != refusal::NONE).then_some(kept);
        let outcome = library(&mut self.lent);
        let both = self.both(reply, outcome, before);
        both.difference(outcome, both.bytes, &self.lent)
            .map(|_| "a call without a code")
    }
}

/// The broker's queries beside the library's, with places past the end. Idle time is the clock's, so for
/// more than 0 seconds it is compared with document 01's.
fn queries_differ(opened: &Opened, lent: &Lent, clock: u64) -> Option<&'static str> {
    let dest = &opened.dest;
    let plain = [
        (lent.is_queue(), u64::from(dest.is_queue()), "is_queue"),
        (
            lent.has_consumers(),
            u64::from(dest.has_consumers()),
            "has_consumers",
        ),
        (
            lent.has_expiring(),
            u64::from(dest.has_expiring()),
            "has_expiring",
        ),
        (lent.message_count(), dest.message_count() as u64, "message_count"),
    ];
    for (asked, wanted, name) in plain {
        if (asked.refusal, asked.answer) != (0, wanted) {
            return Some(name);
        }
    }
    let s = probe::stats(dest);
    let stats = [s.enqueued, s.dequeued, s.expired, s.discarded, s.dispatched];
    if lent.counters() != (Counters { refusal: 0, stats }) {
        return Some("counters");
    }
    let clock = clock.min(1 << 62);
    let elapsed = opened
        .idle_clock()
        .map_or(0, |mark| clock.saturating_sub(mark) / 1000);
    for secs in [0, 1, elapsed, elapsed + 1] {
        let wanted = dest.idle_for(0) && elapsed >= secs;
        let asked = lent.idle_for(clock, secs);
        if (asked.refusal, asked.answer) != (0, u64::from(wanted)) {
            return Some("idle_for");
        }
    }
    let total = dest.page(0, 0).0 as u64;
    for index in [
        0,
        1,
        total / 2,
        total / 2 + 1,
        total.saturating_sub(1),
        total,
        total + 1,
        u64::MAX,
    ] {
        let wanted = probe::seq_at(dest, index as usize).unwrap_or(0);
        let asked = lent.seq_at(index);
        if (asked.refusal, asked.answer) != (0, wanted) {
            return Some("seq_at");
        }
    }
    pages_differ(opened, lent, total)
}

fn pages_differ(opened: &Opened, lent: &Lent, total: u64) -> Option<&'static str> {
    const FREE: Line = Line {
        sequence: u64::MAX,
        expiration: -1,
        redelivery: -1,
    };
    for offset in [
        0,
        1,
        total / 2,
        total.saturating_sub(1),
        total,
        total + 1,
        u64::MAX,
    ] {
        for limit in [0, 1, 2, 49, 50, 51, u64::MAX] {
            let (all, entries) = opened.dest.page(offset as usize, limit as usize);
            let mut wanted: Vec<Line> = entries
                .iter()
                .map(|e| Line {
                    sequence: e.seq,
                    expiration: e.msg.expiration,
                    redelivery: e.redelivery,
                })
                .collect();
            let count = wanted.len();
            wanted.resize(PAGE_LINES + 1, FREE);
            let mut lines = vec![FREE; PAGE_LINES + 1];
            let paged = lent.page(&mut lines, offset, limit);
            if (paged.refusal, paged.total, paged.count) != (0, all as u64, count) || lines != wanted {
                return Some("page");
            }
        }
    }
    None
}

/// Whether the calls in batches of chance sizes leave what they leave one by one.
pub fn batches_differ(calls: &[Call], random: &mut Random) -> Option<&'static str> {
    let words: Vec<CallWords> = calls.iter().map(CallWords::from).collect();
    let mut single = Lent::new();
    let mut wanted: Vec<(Outcome, Vec<EventRow>)> = Vec::new();
    for call in &words {
        let outcome = single.call(*call);
        wanted.push((outcome, single.events[..outcome.events].to_vec()));
    }
    let mut batch = Lent::new();
    batch.events = vec![[0; 6]; BATCH_EVENTS];
    let mut at = 0;
    while at < words.len() {
        let size = (1 + random.below(40) as usize).min(words.len() - at);
        let mut outcomes = vec![Outcome::default(); size];
        let mut done = batch.calls(&words[at..at + size], &mut outcomes);
        if done.calls == 0 {
            // The state is not sound yet: the call by itself says so, or opens.
            outcomes[0] = batch.call(words[at]);
            done.calls = 1;
            done.events = outcomes[0].events;
        }
        let mut from = 0;
        for (outcome, (alone, events)) in outcomes[..done.calls].iter().zip(&wanted[at..]) {
            let to = from + outcome.events;
            if outcome != alone || batch.events[from..to] != events[..] {
                return Some("a batch's outcome or events");
            }
            from = to;
        }
        if from != done.events {
            return Some("a batch's number of events");
        }
        at += done.calls;
    }
    let same = batch.head == single.head && batch.subs == single.subs && batch.rows == single.rows;
    (!same).then_some("what the batches leave")
}

impl Both {
    /// What differs, if anything does. The buffers are an argument, so that spoilt ones can be tried.
    pub fn difference(&self, outcome: Outcome, bytes: Asked, lent: &Lent) -> Option<&'static str> {
        let reply = &self.reply;
        if outcome.refusal != u64::from(reply.refusal) {
            return Some("the refusal");
        }
        if outcome.answer != reply.answer {
            return Some("the answer");
        }
        if outcome.events != reply.events.len() {
            return Some("the number of events");
        }
        let written = lent.events.iter().zip(&reply.events);
        if written
            .into_iter()
            .any(|(row, event)| *row != library::event_words(event))
        {
            return Some("an event");
        }
        if self.before.as_ref().is_some_and(|before| before != lent) {
            return Some("a buffer, though the call is refused");
        }
        if self.whole.is_some() && lent.whole() != self.whole {
            return Some("the state");
        }
        (bytes != self.bytes_wanted()).then_some("the bytes held")
    }

    /// Bytes held as the broker's side has them; before an open there is no sound state.
    fn bytes_wanted(&self) -> Asked {
        let (refusal, answer) = self
            .held
            .map_or((refusal::NOT_SOUND, 0), |h| (refusal::NONE, h.bytes()));
        Asked {
            refusal: u64::from(refusal),
            answer,
        }
    }

    /// Both sides in lines.
    pub fn show(&self, lent: &Lent) -> String {
        let state = |whole: &Option<Whole>| match whole {
            Some(whole) => dump::line_of(whole, Audits::Summed),
            None => "no state\n".to_string(),
        };
        let events: Vec<String> = self.reply.events.iter().map(ToString::to_string).collect();
        let written = &lent.events[..self.outcome.events.min(lent.events.len())];
        format!(
            "broker:  {} {} {events:?} {:?}\nlibrary: {} {} {written:?} {:?}\nbroker:  {}library: {}",
            self.reply.refusal,
            self.reply.answer,
            self.bytes_wanted(),
            self.outcome.refusal,
            self.outcome.answer,
            self.bytes,
            state(&self.whole),
            state(&lent.whole()),
        )
    }
}

/// Where two sides first differ.
pub struct Difference {
    pub index: usize,
    pub what: &'static str,
    pub shown: String,
}

pub fn first_difference(calls: &[Call]) -> Option<Difference> {
    let mut sides = Sides::default();
    for (index, call) in calls.iter().enumerate() {
        let both = sides.call(call);
        let what = both.difference(both.outcome, both.bytes, &sides.lent);
        if let Some(what) = what.or_else(|| sides.between(call)) {
            let shown = both.show(&sides.lent);
            return Some(Difference { index, what, shown });
        }
    }
    None
}

/// Leaves out calls as long as the sides still differ; the calls that are left, and how they differ, as text.
pub fn shrink(calls: &[Call]) -> String {
    let mut calls = calls.to_vec();
    let mut part = calls.len() / 2;
    while part >= 1 {
        let mut from = 0;
        while from < calls.len() {
            let mut fewer = calls.clone();
            fewer.drain(from..calls.len().min(from + part));
            if first_difference(&fewer).is_some() {
                calls = fewer;
            } else {
                from += part;
            }
        }
        part /= 2;
    }
    let lines: Vec<String> = calls.iter().map(text::line).collect();
    let shown = first_difference(&calls).map_or_else(String::new, |d| {
        format!("call {} differs in {}\n{}", d.index, d.what, d.shown)
    });
    format!("{}\n{shown}", lines.join("\n"))
}
