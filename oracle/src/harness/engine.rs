//! One destination run call by call: document 01's refusals before the broker's own code.

use std::fmt;
use std::sync::Arc;
use std::time::Instant;

use tokio::sync::mpsc;

use super::arguments::{self, ROWS};
use super::callfile::{ack_bit, code, join_flag, Call};
use super::host::{self, AckNumbers, EntryNumbers, Id};
use crate::broker::conn::{ConnHandle, Out};
use crate::broker::destination::probe::{self, Surplus};
use crate::broker::destination::{Dest, Effect, ProducerMeta, Stats, SubSpec};
use crate::broker::entry::{Entry, Memory};
use crate::openwire::model::{
    ack_type, Command, ConsumerId, DestKind, Destination, Message, MessageAck, MessageDispatch, ProducerId,
};
use crate::selector::Selector;

/// Refusal numbers of document 01. 1 is about lent buffers, which a call file has none of.
pub mod refusal {
    pub const NONE: u8 = 0;
    pub const NOT_SOUND: u8 = 2;
    pub const ARGUMENTS: u8 = 3;
    pub const SEQUENCE_HELD: u8 = 4;
    pub const NO_ROWS: u8 = 5;
    pub const PRESENT: u8 = 6;
    pub const CONSUMERS: u8 = 7;
    pub const PRODUCERS: u8 = 8;
    pub const CALL_LIMIT: u8 = 9;
    pub const SHARE: u8 = 14;
}

const CONSUMERS_MAX: usize = 32;
const PRODUCERS_MAX: usize = 32;
const AUDITS_MAX: usize = 8;

/// What a call sends.
pub enum Event {
    /// A dead letter.
    Dead {
        sequence: u64,
        redelivery: i32,
        cause: bool,
    },
    /// An entry to a consumer.
    Message { id: Id, sequence: u64, redelivery: i32 },
    /// A null to a consumer.
    Null { id: Id },
}

impl fmt::Display for Event {
    fn fmt(&self, f: &mut fmt::Formatter<'_>) -> fmt::Result {
        match self {
            Event::Dead {
                sequence,
                redelivery,
                cause,
            } => {
                write!(f, "x {sequence} {redelivery} {}", u8::from(*cause))
            }
            Event::Message {
                id,
                sequence,
                redelivery,
            } => {
                write!(
                    f,
                    "d {} {} {} {sequence} {redelivery}",
                    id[0], id[1] as i64, id[2] as i64
                )
            }
            Event::Null { id } => write!(f, "n {} {} {}", id[0], id[1] as i64, id[2] as i64),
        }
    }
}

/// What a call returns.
pub struct Reply {
    pub refusal: u8,
    pub answer: u64,
    pub events: Vec<Event>,
    /// The entries of its dead letters, in the order of their events.
    pub rejected: Vec<EntryNumbers>,
}

impl Reply {
    fn refused(refusal: u8) -> Reply {
        Reply {
            refusal,
            answer: 0,
            events: Vec::new(),
            rejected: Vec::new(),
        }
    }
}

/// The changing calls without a code: `add_discarded`, `expired_before_storing`.
#[derive(Clone, Copy, Debug)]
pub enum Uncoded {
    Discarded,
    Expired,
}

/// An opened destination and what document 01 adds to it.
pub struct Opened {
    pub dest: Dest,
    pub topic_limit: u64,
    pub call_limit: u64,
    pub calls_used: u64,
    /// The allowance for slow clocks (document 02 §4).
    pub allowance: u64,
    /// Rows of each producer connection at most (document 02 §11).
    pub share: u64,
    /// The broker's idle mark, and the clock of the call that set it.
    idle: Option<(Instant, u64)>,
    /// Whose marks are cleared, though the broker still has them: the first half of a release that waits for
    /// its second.
    unmarked: Option<Id>,
}

impl Opened {
    /// The idle mark as a clock.
    pub fn idle_clock(&self) -> Option<u64> {
        self.idle.map(|(_, clock)| clock)
    }

    /// The clock that the broker gets: the call's less the allowance, or 0 where that is below 0. The broker reads
    /// it for expirations alone; its idle mark is its own.
    pub fn reduced(&self, clock: u64) -> i64 {
        clock.saturating_sub(self.allowance) as i64
    }

    /// Rows that an enqueue needs and that its connection holds, by the broker's own state.
    fn rows_of(&self, entry: &Entry) -> (u64, u64) {
        let needed = if self.dest.is_queue() {
            1
        } else {
            probe::accepting(&self.dest, entry) as u64
        };
        let connection = host::entry_numbers(entry).connection;
        let own = probe::owned(&self.dest);
        let held = own
            .iter()
            .filter(|e| host::entry_numbers(e).connection == connection);
        (needed, held.count() as u64)
    }

    /// Whether document 02 §11 says that an enqueue of this connection never gets 5: a queue's browsers hold no copies, the share has room for the
    /// entry, and share times the connections that hold rows or ask is at most 512.
    pub fn suffices(&self, entry: &Entry) -> bool {
        let own = probe::owned(&self.dest);
        let mut connections: Vec<u64> = own.iter().map(|e| host::entry_numbers(e).connection).collect();
        connections.push(host::entry_numbers(entry).connection);
        connections.sort_unstable();
        connections.dedup();
        let (needed, held) = self.rows_of(entry);
        let browsed = probe::rows_used(&self.dest) > own.len();
        !browsed && needed + held <= self.share && self.share * connections.len() as u64 <= ROWS
    }

    /// The consumer whose marks count as cleared.
    pub fn unmarked(&self) -> Option<Id> {
        self.unmarked
    }

    /// Before an accepted call: the first half of a release that waits. Its second half has the broker do both;
    /// before any other call the harness clears the marks itself.
    fn settle(&mut self, call: &Call) -> Half {
        match self.unmarked.take() {
            None => Half::None,
            Some(id) if call.code == code::RELEASE && id_of(call) == id => Half::Both,
            Some(id) if probe::marks(&self.dest, &host::consumer_id(id)).is_empty() => Half::None,
            Some(id) => {
                probe::set_marks(&self.dest, &host::consumer_id(id), &[]);
                Half::First
            }
        }
    }

    /// An accepted second half of a release. Where it comes alone, the broker's release clears marks that have to
    /// stay, and the harness puts them back.
    fn second_half(&mut self, call: &Call, prepared: &mut Prepared) -> Half {
        let id = host::consumer_id(id_of(call));
        let marks = probe::marks(&self.dest, &id);
        prepared.run(&self.dest);
        if marks.is_empty() {
            return Half::None;
        }
        probe::set_marks(&self.dest, &id, &marks);
        Half::Second
    }

    /// Reads the broker's idle mark; a new one was set at the call's clock.
    fn follow_idle(&mut self, call: &Call) {
        let mark = probe::idle_mark(&self.dest);
        if mark != self.idle.map(|(at, _)| at) {
            self.idle = mark.map(|at| {
                let place =
                    arguments::clock_place(call.code).expect("a call that marks idleness has a clock");
                (at, call.args[place])
            });
        }
    }
}

/// What a release in two halves (document 02 §10) has needed, as the broker has one call for both.
#[derive(Clone, Copy, PartialEq)]
pub enum Half {
    /// The broker alone.
    None,
    /// A first half, then at once its second: the broker's call.
    Both,
    /// A first half alone, of a consumer with marks: the harness has cleared them.
    First,
    /// A second half alone, of a consumer with marks: the harness has put them back.
    Second,
}

/// How often document 02 §5 was read by the harness, as the broker discards what is over the limit and does not ask what has expired.
#[derive(Clone, Copy, Default)]
pub struct SurplusCounts {
    /// Enqueues that bring a list over its limit.
    pub over: u64,
    /// Of these, with something expired in such a list, so that the harness has taken it out.
    pub expired: u64,
    /// Of these, with several expired copies waiting in such lists.
    pub several: u64,
    /// Of these, with an entry that has itself expired.
    pub new: u64,
    /// Of these, with other consumers that are given a copy.
    pub others: u64,
    /// Of these, with a discard by the broker in another list.
    pub discards: u64,
}

impl SurplusCounts {
    /// Counts an enqueue.
    fn add(&mut self, taken: &Surplus, accepting: u64, discards: bool) {
        let expired = taken.expired + taken.kept_out() > 0;
        self.over += u64::from(taken.over > 0);
        self.expired += u64::from(expired);
        self.several += u64::from(taken.expired > 1);
        self.new += u64::from(taken.kept_out() > 0);
        self.others += u64::from(expired && accepting > taken.over);
        self.discards += u64::from(expired && discards);
    }

    /// The counts in the order above.
    pub fn numbers(&self) -> [u64; 6] {
        [
            self.over,
            self.expired,
            self.several,
            self.new,
            self.others,
            self.discards,
        ]
    }
}

pub struct Engine {
    opened: Option<Opened>,
    /// How often each was needed.
    pub halves: [u64; 4],
    pub surplus: SurplusCounts,
    /// A selector that takes nothing.
    nothing: Arc<Selector>,
    /// One connection for all consumers keeps the sends in order.
    conn: Arc<ConnHandle>,
    sends: mpsc::UnboundedReceiver<Out>,
    memory: Arc<Memory>,
    selectors: Vec<Option<Arc<Selector>>>,
}

impl Default for Engine {
    fn default() -> Engine {
        Engine::new()
    }
}

impl Engine {
    pub fn new() -> Engine {
        let (tx, sends) = mpsc::unbounded_channel();
        let address = ([127, 0, 0, 1], 0).into();
        Engine {
            opened: None,
            halves: [0; 4],
            surplus: SurplusCounts::default(),
            nothing: host::nothing(),
            conn: Arc::new(ConnHandle::new(1, address, tx)),
            sends,
            memory: Arc::new(Memory::new(0)),
            selectors: (0..=host::NO_SELECTOR).map(host::selector).collect(),
        }
    }

    pub fn opened(&self) -> Option<&Opened> {
        self.opened.as_ref()
    }

    /// No destination is open afterwards.
    pub fn close(&mut self) {
        self.opened = None;
    }

    pub fn stats(&self) -> Stats {
        self.opened
            .as_ref()
            .map_or_else(Stats::default, |o| probe::stats(&o.dest))
    }

    pub fn call(&mut self, call: &Call) -> Reply {
        let refusal = self.refusal(call);
        if refusal != refusal::NONE {
            return Reply::refused(refusal);
        }
        if call.code == code::OPEN {
            self.open(call);
            return Reply::refused(refusal::NONE);
        }
        let mut prepared = self.prepare(call);
        let opened = self.opened.as_mut().expect("an accepted call has a destination");
        let half = opened.settle(call);
        self.halves[half as usize] += 1;
        let (answer, effects) = if call.code == code::RELEASE && half != Half::Both {
            self.halves[opened.second_half(call, &mut prepared) as usize] += 1;
            (0, Vec::new())
        } else if let Prepared::Enqueue(Some(entry), now) = &prepared {
            let accepting = probe::accepting(&opened.dest, entry) as u64;
            let before = probe::stats(&opened.dest).discarded;
            let taken = probe::take_surplus(&opened.dest, entry, *now, &self.nothing);
            let done = prepared.run(&opened.dest);
            let discards = probe::stats(&opened.dest).discarded > before;
            self.surplus.add(&taken, accepting, discards);
            probe::put_back(&opened.dest, taken);
            done
        } else {
            prepared.run(&opened.dest)
        };
        if call.code == code::UNMARK {
            opened.unmarked = Some(id_of(call));
        }
        opened.calls_used += 1;
        opened.follow_idle(call);
        let rejected = effects.iter().map(rejected).collect();
        let mut events: Vec<Event> = effects.into_iter().map(dead_letter).collect();
        while let Ok(out) = self.sends.try_recv() {
            events.push(sent(out));
        }
        Reply {
            refusal,
            answer,
            events,
            rejected,
        }
    }

    /// A changing call that has no code in the call file.
    pub fn uncoded(&mut self, call: Uncoded) -> Reply {
        let Some(opened) = &mut self.opened else {
            return Reply::refused(refusal::NOT_SOUND);
        };
        if opened.calls_used == opened.call_limit {
            return Reply::refused(refusal::CALL_LIMIT);
        }
        match call {
            Uncoded::Discarded => opened.dest.add_discarded(),
            Uncoded::Expired => opened
                .dest
                .expired_before_storing(&host::audited_message([0; 3], 0)),
        }
        opened.calls_used += 1;
        Reply::refused(refusal::NONE)
    }

    fn open(&mut self, call: &Call) {
        let [kind, topic_limit, call_limit, clock, allowance, share, ..] = call.args;
        let kind = if kind == 0 {
            DestKind::Queue
        } else {
            DestKind::Topic
        };
        let dest = Dest::new(Destination::new(kind, "oracle"), None, topic_limit as usize);
        let idle = probe::idle_mark(&dest).map(|at| (at, clock));
        self.opened = Some(Opened {
            dest,
            topic_limit,
            call_limit,
            calls_used: 0,
            allowance,
            share: if share == 0 { ROWS } else { share },
            idle,
            unmarked: None,
        });
    }

    // -- refusals -----------------------------------------------------------------

    fn refusal(&self, call: &Call) -> u8 {
        if call.code == code::OPEN {
            return if arguments::in_range(call) {
                refusal::NONE
            } else {
                refusal::ARGUMENTS
            };
        }
        let Some(opened) = &self.opened else {
            return refusal::NOT_SOUND;
        };
        if !arguments::in_range(call) {
            return refusal::ARGUMENTS;
        }
        if opened.calls_used == opened.call_limit {
            return refusal::CALL_LIMIT;
        }
        let dest = &opened.dest;
        match call.code {
            code::ENQUEUE => self.refuse_enqueue(opened, call),
            code::JOIN => self.refuse_join(opened, call),
            code::ADD_PRODUCER => {
                let id = host::producer_id(id_of(call));
                let full = probe::producer_count(dest) >= PRODUCERS_MAX;
                refuse_if(full && !probe::has_producer(dest, &id), refusal::PRODUCERS)
            }
            code::DUPLICATE => {
                let id = host::producer_id(id_of(call));
                let full = call.args[0] != 0 && probe::audit_count(dest) >= AUDITS_MAX;
                refuse_if(full && !probe::has_audit(dest, &id), refusal::PRODUCERS)
            }
            _ => refusal::NONE,
        }
    }

    fn refuse_enqueue(&self, opened: &Opened, call: &Call) -> u8 {
        if probe::holds(&opened.dest, call.args[0]) {
            return refusal::SEQUENCE_HELD;
        }
        let entry = host::entry(entry_of(call), &self.memory);
        let (needed, held) = opened.rows_of(&entry);
        if opened.share < ROWS && needed + held > opened.share {
            return refusal::SHARE;
        }
        let short = needed > free_rows(&opened.dest) as u64;
        assert!(!short || !opened.suffices(&entry), "shares suffice");
        refuse_if(short, refusal::NO_ROWS)
    }

    /// Whether shares suffice for an enqueue that comes next (document 02 §11).
    pub fn suffices(&self, call: &Call) -> bool {
        let opened = self.opened.as_ref().filter(|_| arguments::in_range(call));
        opened.is_some_and(|o| o.suffices(&host::entry(entry_of(call), &self.memory)))
    }

    fn refuse_join(&self, opened: &Opened, call: &Call) -> u8 {
        let dest = &opened.dest;
        if probe::has_sub(dest, &host::consumer_id(id_of(call))) {
            return refusal::PRESENT;
        }
        if probe::sub_count(dest) >= CONSUMERS_MAX {
            return refusal::CONSUMERS;
        }
        let [_, _, _, _, selector, flags, clock, _] = call.args;
        if flags & join_flag::BROWSER == 0 {
            return refusal::NONE;
        }
        let selector = self.selectors[selector as usize].as_deref();
        let needed = probe::snapshot_rows(dest, selector, opened.reduced(clock));
        refuse_if(needed > free_rows(dest), refusal::NO_ROWS)
    }

    // -- the broker's own code ------------------------------------------------------

    /// The broker's arguments for an accepted call.
    pub fn prepare(&self, call: &Call) -> Prepared {
        let a = &call.args;
        let opened = self.opened.as_ref().expect("an accepted call has a destination");
        let now = |place: usize| opened.reduced(a[place]);
        let consumer = || host::consumer_id(id_of(call));
        let producer = || host::producer_id(id_of(call));
        match call.code {
            code::ENQUEUE => Prepared::Enqueue(Some(host::entry(entry_of(call), &self.memory)), now(6)),
            code::JOIN => {
                let spec = SubSpec {
                    id: consumer(),
                    conn: self.conn.clone(),
                    prefetch: a[3] as i32,
                    selector: self.selectors[a[4] as usize].clone(),
                    no_local: a[5] & join_flag::NO_LOCAL != 0,
                    browser: a[5] & join_flag::BROWSER != 0,
                };
                Prepared::Join(Some(spec), now(6))
            }
            code::LEAVE => Prepared::Leave(consumer(), a[3] as i64, now(4)),
            code::ACK => {
                let transacted = a[3] & ack_bit::TRANSACTED != 0;
                let numbers = self.single(ack_of(call), transacted);
                Prepared::Ack(Box::new(host::ack(numbers)), transacted, now(6))
            }
            code::PULL => Prepared::Pull(consumer(), a[3] as i64, now(4)),
            code::TIMEOUT => Prepared::Timeout(consumer(), a[3]),
            code::PREFETCH => Prepared::Prefetch(consumer(), a[3] as i32, now(4)),
            code::UNMARK => Prepared::Unmark,
            code::SWEEP => Prepared::Sweep(now(0), a[1] as usize),
            code::CLEAR => Prepared::Clear,
            code::ADD_PRODUCER => Prepared::AddProducer(Some((producer(), meta_of(a[0])))),
            code::REMOVE_PRODUCER => Prepared::RemoveProducer(producer()),
            code::DUPLICATE => Prepared::Duplicate(Box::new(host::audited_message(id_of(call), a[3] as i64))),
            code::RELEASE_AUDITS => Prepared::ReleaseAudits(host::connection_text(a[0])),
            code::RELEASE => Prepared::Release(consumer(), now(3)),
            other => unreachable!("code {other} was accepted"),
        }
    }

    /// Document 02 §2: of a present consumer, a transacted INDIVIDUAL marks only its last message. The broker
    /// gets it with its first message set to its last.
    fn single(&self, ack: AckNumbers, transacted: bool) -> AckNumbers {
        let present = |o: &Opened| probe::has_sub(&o.dest, &host::consumer_id(ack.id));
        let alone =
            transacted && ack.ack_type == ack_type::INDIVIDUAL && self.opened.as_ref().is_some_and(present);
        AckNumbers {
            first: if alone { ack.last } else { ack.first },
            ..ack
        }
    }

    /// Forgets what the broker has sent.
    pub fn drop_sent(&mut self) {
        while self.sends.try_recv().is_ok() {}
    }
}

/// An accepted call with the broker's arguments. What the broker takes over is there once.
pub enum Prepared {
    Enqueue(Option<Entry>, i64),
    Join(Option<SubSpec>, i64),
    Leave(ConsumerId, i64, i64),
    Ack(Box<MessageAck>, bool, i64),
    Pull(ConsumerId, i64, i64),
    Timeout(ConsumerId, u64),
    Prefetch(ConsumerId, i32, i64),
    /// The first half of a release; the broker does it with the second.
    Unmark,
    Release(ConsumerId, i64),
    Sweep(i64, usize),
    Clear,
    AddProducer(Option<(ProducerId, ProducerMeta)>),
    RemoveProducer(ProducerId),
    Duplicate(Box<Message>),
    ReleaseAudits(Arc<str>),
}

impl Prepared {
    /// The broker's own code; returns the answer and the dead letters.
    pub fn run(&mut self, dest: &Dest) -> (u64, Vec<Effect>) {
        const ONCE: &str = "a prepared call runs once";
        match self {
            Prepared::Enqueue(entry, now) => return (0, dest.enqueue(entry.take().expect(ONCE), *now)),
            Prepared::Join(spec, now) => dest.add_sub(spec.take().expect(ONCE), *now),
            Prepared::Leave(id, last, now) => {
                return (u64::from(dest.remove_sub(id, *last, *now)), Vec::new());
            }
            Prepared::Ack(ack, transacted, now) => return (0, dest.ack(ack, *transacted, *now)),
            Prepared::Pull(id, timeout, now) => {
                return (dest.pull(id, *timeout, *now).unwrap_or(0), Vec::new());
            }
            Prepared::Timeout(id, generation) => dest.pull_timeout(id, *generation),
            Prepared::Prefetch(id, prefetch, now) => dest.set_prefetch(id, *prefetch, *now),
            Prepared::Unmark => {}
            Prepared::Release(id, now) => dest.release_reserved(id, *now),
            Prepared::Sweep(now, most) => return (dest.sweep_expired(*now, *most) as u64, Vec::new()),
            Prepared::Clear => return (dest.clear() as u64, Vec::new()),
            Prepared::AddProducer(producer) => {
                let (id, meta) = producer.take().expect(ONCE);
                dest.add_producer(id, meta);
            }
            Prepared::RemoveProducer(id) => dest.remove_producer(id),
            Prepared::Duplicate(message) => return (u64::from(dest.is_duplicate(message)), Vec::new()),
            Prepared::ReleaseAudits(connection) => dest.release_audits(connection),
        }
        (0, Vec::new())
    }
}

fn refuse_if(test: bool, number: u8) -> u8 {
    if test {
        number
    } else {
        refusal::NONE
    }
}

fn free_rows(dest: &Dest) -> usize {
    let used = probe::rows_used(dest);
    (ROWS as usize)
        .checked_sub(used)
        .expect("at most 512 rows are used")
}

fn id_of(call: &Call) -> Id {
    [call.args[0], call.args[1], call.args[2]]
}

fn entry_of(call: &Call) -> EntryNumbers {
    let [sequence, expiration, persistent, connection, match_word, redelivery, _, size] = call.args;
    EntryNumbers {
        sequence,
        expiration: expiration as i64,
        persistent: persistent == 1,
        connection,
        match_word,
        redelivery: redelivery as i32,
        size,
    }
}

fn ack_of(call: &Call) -> AckNumbers {
    let [_, _, _, word, first, last, ..] = call.args;
    AckNumbers {
        id: id_of(call),
        ack_type: (word & 255) as u8,
        first: (word & ack_bit::FIRST != 0).then_some(first),
        last: (word & ack_bit::LAST != 0).then_some(last),
        cause: word & ack_bit::CAUSE != 0,
    }
}

/// Console texts of a producer, which nothing reads here.
fn meta_of(connection: u64) -> ProducerMeta {
    ProducerMeta {
        conn_id: connection,
        remote: String::new(),
        connection_id: connection.to_string(),
    }
}

/// The entry of a dead letter.
pub fn rejected(effect: &Effect) -> EntryNumbers {
    let Effect::ToDlq { entry, .. } = effect;
    host::entry_numbers(entry)
}

fn dead_letter(effect: Effect) -> Event {
    let Effect::ToDlq { entry, cause } = effect;
    Event::Dead {
        sequence: entry.seq,
        redelivery: entry.redelivery,
        cause: cause == host::CLIENT_CAUSE,
    }
}

fn sent(out: Out) -> Event {
    let Out::Cmd(Command::MessageDispatch(md)) = out else {
        unreachable!("a destination sends only dispatches");
    };
    let MessageDispatch {
        consumer_id,
        message,
        redelivery_counter,
        ..
    } = md;
    let id = host::consumer_number(&consumer_id.expect("a dispatch names its consumer"));
    match message {
        None => Event::Null { id },
        Some(message) => {
            assert_eq!(
                message.redelivery_counter, redelivery_counter,
                "the message carries its count"
            );
            let message_id = message.message_id.as_ref().expect("every entry here has an id");
            Event::Message {
                id,
                sequence: message_id.broker_sequence_id as u64,
                redelivery: redelivery_counter,
            }
        }
    }
}
