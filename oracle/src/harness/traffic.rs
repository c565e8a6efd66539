//! Traffic for times: call files in which every call is accepted, with so many rows in use.

use std::collections::VecDeque;

use super::callfile::{ack_bit, code, Call};
use super::engine::{refusal, Engine, Event};
use super::host::{Id, NO_SELECTOR};
use crate::broker::destination::probe;
use crate::openwire::model::ack_type;

/// Calls that fill the destination, and those that are timed.
pub struct Traffic {
    pub before: Vec<Call>,
    pub timed: Vec<Call>,
}

/// The names, and what makes the calls.
pub const PROFILES: [(&str, fn(usize, usize) -> Traffic); 5] = [
    ("queue", queue),
    ("topic", topic),
    ("pulls", pulls),
    ("transactions", transactions),
    ("mixed", mixed),
];

const CONSUMERS: u64 = 4;
const PREFETCH: u64 = 8;

/// An entry is enqueued, sent and acknowledged.
fn queue(rows: usize, calls: usize) -> Traffic {
    let mut flow = Flow::open(0, PREFETCH);
    flow.fill(rows);
    flow.timed(calls, |flow| {
        flow.ack_oldest();
        flow.enqueue(0);
    })
}

/// An entry is enqueued, sent to four consumers and acknowledged by each.
fn topic(rows: usize, calls: usize) -> Traffic {
    let mut flow = Flow::open(1, PREFETCH);
    flow.fill(rows);
    flow.timed(calls, |flow| {
        for _ in 0..CONSUMERS {
            flow.ack_oldest();
        }
        flow.enqueue(0);
    })
}

/// Consumers ask for each entry.
fn pulls(rows: usize, calls: usize) -> Traffic {
    let mut flow = Flow::open(0, 0);
    flow.fill(rows);
    flow.timed(calls, |flow| {
        let id = consumer(flow.turns % CONSUMERS);
        flow.call(code::PULL, &[id[0], id[1], id[2], 5, flow.clock]);
        flow.ack_oldest();
        flow.enqueue(0);
    })
}

/// Two acknowledgements in a transaction, then its end; now and then the consumer leaves, and the
/// transaction is rolled back.
fn transactions(rows: usize, calls: usize) -> Traffic {
    let mut flow = Flow::open(0, PREFETCH);
    flow.fill(rows);
    flow.timed(calls, |flow| {
        let id = consumer(flow.turns % CONSUMERS);
        let held: Vec<u64> = flow.sent_to(id).take(2).collect();
        for sequence in &held {
            flow.ack(id, u64::from(ack_type::STANDARD) | ack_bit::TRANSACTED, *sequence);
        }
        if flow.turns % 16 == 15 {
            flow.call(code::LEAVE, &[id[0], id[1], id[2], -1i64 as u64, flow.clock]);
            flow.sent.retain(|(to, _)| *to != id);
            flow.call(code::UNMARK, &id);
            flow.call(code::RELEASE, &[id[0], id[1], id[2], flow.clock]);
            flow.join(id, PREFETCH, NO_SELECTOR, 0);
        } else if let Some(last) = held.last() {
            flow.ack(id, u64::from(ack_type::STANDARD), *last);
            flow.sent.retain(|(to, s)| *to != id || !held.contains(s));
        }
        for _ in 0..held.len() {
            flow.refill(0);
        }
    })
}

/// Some of everything, on a queue with selectors, no-local consumers, expiring entries, producers and
/// audits.
fn mixed(rows: usize, calls: usize) -> Traffic {
    let mut flow = Flow::open(0, PREFETCH);
    flow.join([9, 1, 1], PREFETCH, 3, 0);
    flow.join([7, 1, 2], PREFETCH, NO_SELECTOR, 1);
    flow.fill(rows);
    flow.timed(calls, |flow| {
        flow.ack_oldest();
        flow.other_call();
        flow.refill(if flow.turns % 4 == 0 { 400 } else { 0 });
        flow.refill(0);
    })
}

fn consumer(k: u64) -> Id {
    [1 + k % 2, 1, k]
}

/// A destination to which the calls are made as they are written.
struct Flow {
    engine: Engine,
    calls: Vec<Call>,
    /// What was sent and not acknowledged, oldest first.
    sent: VecDeque<(Id, u64)>,
    rows: usize,
    sequence: u64,
    clock: u64,
    turns: u64,
}

impl Flow {
    fn open(kind: u64, prefetch: u64) -> Flow {
        let mut flow = Flow {
            engine: Engine::new(),
            calls: Vec::new(),
            sent: VecDeque::new(),
            rows: 0,
            sequence: 0,
            clock: 1000,
            turns: 0,
        };
        flow.call(code::OPEN, &[kind, 0, 1 << 40, flow.clock]);
        for k in 0..CONSUMERS {
            flow.join(consumer(k), prefetch, NO_SELECTOR, 0);
        }
        flow
    }

    fn call(&mut self, code: u64, args: &[u64]) {
        let call = Call::new(code, args);
        let reply = self.engine.call(&call);
        assert_eq!(reply.refusal, refusal::NONE, "timed calls are accepted");
        for event in reply.events {
            if let Event::Message { id, sequence, .. } = event {
                self.sent.push_back((id, sequence));
            }
        }
        self.calls.push(call);
        self.clock += 1;
    }

    fn rows_used(&self) -> usize {
        self.engine.opened().map_or(0, |o| probe::rows_used(&o.dest))
    }

    fn join(&mut self, id: Id, prefetch: u64, selector: u64, flags: u64) {
        let args = [id[0], id[1], id[2], prefetch, selector, flags, self.clock];
        self.call(code::JOIN, &args);
    }

    /// An entry that lives so long, 0 for ever.
    fn enqueue(&mut self, life: u64) {
        self.sequence += 1;
        let expiration = if life == 0 { 0 } else { self.clock + life };
        let args = [self.sequence, expiration, 1, 7, self.sequence * 8, 0, self.clock];
        self.call(code::ENQUEUE, &args);
    }

    fn refill(&mut self, life: u64) {
        if self.rows_used() < self.rows {
            self.enqueue(life);
        }
    }

    fn fill(&mut self, rows: usize) {
        self.rows = rows;
        while self.rows_used() < rows {
            self.enqueue(0);
        }
    }

    fn sent_to(&self, id: Id) -> impl Iterator<Item = u64> + '_ {
        self.sent.iter().filter(move |(to, _)| *to == id).map(|(_, s)| *s)
    }

    fn ack(&mut self, id: Id, word: u64, last: u64) {
        let args = [id[0], id[1], id[2], word | ack_bit::LAST, 0, last, self.clock];
        self.call(code::ACK, &args);
    }

    fn ack_oldest(&mut self) {
        if let Some((id, sequence)) = self.sent.pop_front() {
            self.ack(id, u64::from(ack_type::STANDARD), sequence);
        }
    }

    /// One of the calls that plain traffic has not.
    fn other_call(&mut self) {
        let (clock, turns) = (self.clock, self.turns);
        let id = consumer(turns % CONSUMERS);
        let producer = [5, 1, turns % 2];
        let oldest = self.sent.front().copied();
        match (turns % 8, oldest) {
            (0, _) => self.call(code::SWEEP, &[clock, 10]),
            (1, _) => self.call(code::DUPLICATE, &[5, 1, turns % 2, turns]),
            (2, _) => self.call(code::ADD_PRODUCER, &producer),
            (3, _) => self.call(code::PREFETCH, &[id[0], id[1], id[2], PREFETCH, clock]),
            (4, Some((to, s))) => self.ack(to, u64::from(ack_type::DELIVERED), s),
            (5, Some((to, s))) => self.ack(to, u64::from(ack_type::REDELIVERED), s),
            (6, Some((to, s))) => {
                self.sent.pop_front();
                self.ack(to, u64::from(ack_type::POISON), s);
            }
            _ => self.call(code::PULL, &[id[0], id[1], id[2], 0, clock]),
        }
    }

    /// Parts the calls made so far from those that `round` makes, at least so many.
    fn timed(mut self, calls: usize, round: impl Fn(&mut Flow)) -> Traffic {
        let before = std::mem::take(&mut self.calls);
        while self.calls.len() < calls {
            round(&mut self);
            self.turns += 1;
        }
        Traffic {
            before,
            timed: self.calls,
        }
    }
}
