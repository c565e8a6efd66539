//! The destination library for Rust: a queue or a topic that owns its buffers. include/destination.h and docs/LIBRARY.md say what
//! the calls do. Each `unsafe` lends the library the vectors of one destination, with their true lengths.

mod library {
    use super::{Counters, Line, Request, Span};

    #[repr(C)]
    #[derive(Clone, Copy, Default)]
    pub struct Outcome {
        pub refusal: u64,
        pub answer: u64,
        pub events: usize,
    }

    #[repr(C)]
    #[derive(Clone, Copy)]
    pub struct Done {
        pub calls: usize,
        pub events: usize,
    }

    #[repr(C)]
    #[derive(Clone, Copy)]
    pub struct Asked {
        pub refusal: u64,
        pub answer: u64,
    }

    #[repr(C)]
    #[derive(Clone, Copy)]
    pub struct Counted {
        pub refusal: u64,
        pub counters: Counters,
    }

    #[repr(C)]
    #[derive(Clone, Copy)]
    pub struct Paged {
        pub refusal: u64,
        pub total: u64,
        pub count: usize,
    }

    #[repr(C)]
    #[derive(Clone, Copy)]
    pub struct Outlooked {
        pub refusal: u64,
        pub outlook: super::Outlook,
        pub count: usize,
    }

    const _: () = assert!(size_of::<Outlooked>() == 48 && size_of::<Span>() == 32);
    const _: () = assert!(size_of::<Request>() == 72 && size_of::<Outcome>() == 24 && size_of::<Asked>() == 16);
    const _: () = assert!(size_of::<Counted>() == 48 && size_of::<Paged>() == 24 && size_of::<Done>() == 16 && size_of::<Line>() == 24);

    type Head = *const u64;
    type Subs = *const [u64; 16];
    type Rows = *const [u64; 10];

    unsafe extern "C" {
        pub safe fn destination_head_words() -> usize;
        pub safe fn destination_consumers() -> usize;
        pub safe fn destination_rows() -> usize;
        pub safe fn destination_events() -> usize;
        pub safe fn destination_page_lines() -> usize;
        pub safe fn destination_outlook_lines() -> usize;
        pub fn destination_call(
            head: *mut u64,
            head_words: usize,
            subs: *mut [u64; 16],
            subs_length: usize,
            rows: *mut [u64; 10],
            rows_length: usize,
            events: *mut [u64; 6],
            events_length: usize,
            request: Request,
        ) -> Outcome;
        pub fn destination_add_discarded(
            head: *mut u64,
            head_words: usize,
            subs: *mut [u64; 16],
            subs_length: usize,
            rows: *mut [u64; 10],
            rows_length: usize,
            events: *mut [u64; 6],
            events_length: usize,
        ) -> Outcome;
        pub fn destination_expired_before_storing(
            head: *mut u64,
            head_words: usize,
            subs: *mut [u64; 16],
            subs_length: usize,
            rows: *mut [u64; 10],
            rows_length: usize,
            events: *mut [u64; 6],
            events_length: usize,
        ) -> Outcome;
        pub fn destination_calls(
            head: *mut u64,
            head_words: usize,
            subs: *mut [u64; 16],
            subs_length: usize,
            rows: *mut [u64; 10],
            rows_length: usize,
            events: *mut [u64; 6],
            events_length: usize,
            requests: *const Request,
            requests_length: usize,
            outcomes: *mut Outcome,
            outcomes_length: usize,
        ) -> Done;
        pub fn destination_is_queue(h: Head, hn: usize, s: Subs, sn: usize, r: Rows, rn: usize) -> Asked;
        pub fn destination_has_consumers(h: Head, hn: usize, s: Subs, sn: usize, r: Rows, rn: usize) -> Asked;
        pub fn destination_has_expiring(h: Head, hn: usize, s: Subs, sn: usize, r: Rows, rn: usize) -> Asked;
        pub fn destination_message_count(h: Head, hn: usize, s: Subs, sn: usize, r: Rows, rn: usize) -> Asked;
        pub fn destination_bytes_held(h: Head, hn: usize, s: Subs, sn: usize, r: Rows, rn: usize) -> Asked;
        pub fn destination_idle_for(h: Head, hn: usize, s: Subs, sn: usize, r: Rows, rn: usize, clock: u64, seconds: u64) -> Asked;
        pub fn destination_seq_at(h: Head, hn: usize, s: Subs, sn: usize, r: Rows, rn: usize, index: u64) -> Asked;
        pub fn destination_counters(h: Head, hn: usize, s: Subs, sn: usize, r: Rows, rn: usize) -> Counted;
        pub fn destination_page(
            h: Head,
            hn: usize,
            s: Subs,
            sn: usize,
            r: Rows,
            rn: usize,
            lines: *mut Line,
            lines_length: usize,
            offset: u64,
            limit: u64,
        ) -> Paged;
        pub fn destination_outlook(
            h: Head,
            hn: usize,
            s: Subs,
            sn: usize,
            r: Rows,
            rn: usize,
            lines: *mut Line,
            lines_length: usize,
            span: Span,
        ) -> Outlooked;
    }
}

use library::{Asked, Outcome};

/// A consumer or a producer: the host's numbers for its texts, one to one.
#[derive(Clone, Copy, Debug, PartialEq, Eq)]
pub struct Id {
    pub connection: u64,
    pub session: i64,
    pub value: i64,
}

#[derive(Clone, Copy, Debug, PartialEq, Eq)]
pub enum Kind {
    Queue,
    Topic,
}

/// An entry, as it is enqueued.
#[derive(Clone, Copy, Debug, Default)]
pub struct Entry {
    pub sequence: u64,
    /// The clock from which on it is expired; 0 or less: never.
    pub expiration: i64,
    pub persistent: bool,
    /// Its producer's connection; 0: none.
    pub producer: u64,
    /// Bit s says whether selector s accepts it.
    pub match_word: u64,
    pub redelivery: i32,
    /// Its bytes.
    pub size: u32,
}

/// A consumer, as it joins.
#[derive(Clone, Copy, Debug)]
pub struct Consumer {
    pub id: Id,
    pub prefetch: i32,
    /// 0 to 63; none: every entry.
    pub selector: Option<u8>,
    pub no_local: bool,
    pub browser: bool,
}

#[derive(Clone, Copy, Debug, PartialEq, Eq)]
pub enum AckType {
    Delivered,
    Poison,
    Standard,
    Redelivered,
    Individual,
    Unmatched,
    Expired,
}

/// An acknowledgement of entries that were sent, by sequence number.
#[derive(Clone, Copy, Debug)]
pub struct Ack {
    pub kind: AckType,
    pub transacted: bool,
    pub first: Option<i64>,
    pub last: Option<i64>,
    pub cause: bool,
}

/// A call with its eight words, the unused ones 0.
#[repr(C)]
#[derive(Clone, Copy, Debug, PartialEq, Eq)]
pub struct Request {
    pub code: u64,
    pub words: [u64; 8],
}

impl Request {
    fn new(code: u64, words: &[u64]) -> Request {
        let mut request = Request { code, words: [0; 8] };
        request.words[..words.len()].copy_from_slice(words);
        request
    }

    /// With an identifier, and the words after it.
    fn by(code: u64, id: Id, rest: &[u64]) -> Request {
        let mut words = vec![id.connection, id.session as u64, id.value as u64];
        words.extend_from_slice(rest);
        Request::new(code, &words)
    }

    pub fn open(kind: Kind, topic_limit: u64, call_limit: u64, clock: u64, allowance: u64, share: u64) -> Request {
        Request::new(0, &[(kind == Kind::Topic) as u64, topic_limit, call_limit, clock, allowance, share])
    }

    pub fn enqueue(e: Entry, clock: u64) -> Request {
        let (expiration, redelivery) = (e.expiration as u64, e.redelivery as i64 as u64);
        Request::new(1, &[e.sequence, expiration, e.persistent as u64, e.producer, e.match_word, redelivery, clock, e.size.into()])
    }

    pub fn join(c: Consumer, clock: u64) -> Request {
        let selector = c.selector.map_or(64, |s| if s < 64 { s as u64 } else { 65 });
        let flags = c.no_local as u64 + 2 * c.browser as u64;
        Request::by(2, c.id, &[c.prefetch as i64 as u64, selector, flags, clock])
    }

    pub fn leave(id: Id, last_delivered: Option<i64>, clock: u64) -> Request {
        Request::by(3, id, &[last_delivered.unwrap_or(-1) as u64, clock])
    }

    pub fn ack(id: Id, a: Ack, clock: u64) -> Request {
        let present = 512 * a.first.is_some() as u64 + 1024 * a.last.is_some() as u64;
        let word = a.kind as u64 + 256 * a.transacted as u64 + present + 2048 * a.cause as u64;
        Request::by(4, id, &[word, a.first.unwrap_or(0) as u64, a.last.unwrap_or(0) as u64, clock])
    }

    pub fn pull(id: Id, timeout: i64, clock: u64) -> Request {
        Request::by(5, id, &[timeout as u64, clock])
    }

    pub fn timeout(id: Id, generation: u64) -> Request {
        Request::by(6, id, &[generation])
    }

    pub fn prefetch(id: Id, prefetch: i32, clock: u64) -> Request {
        Request::by(7, id, &[prefetch as i64 as u64, clock])
    }

    pub fn unmark(id: Id) -> Request {
        Request::by(8, id, &[])
    }

    pub fn sweep(clock: u64, maximum: u64) -> Request {
        Request::new(9, &[clock, maximum])
    }

    pub fn clear() -> Request {
        Request::new(10, &[])
    }

    pub fn add_producer(id: Id) -> Request {
        Request::by(11, id, &[])
    }

    pub fn remove_producer(id: Id, clock: u64) -> Request {
        Request::by(12, id, &[clock])
    }

    pub fn duplicate(id: Id, number: i64) -> Request {
        Request::by(13, id, &[number as u64])
    }

    pub fn release_audits(connection: u64) -> Request {
        Request::new(14, &[connection])
    }

    pub fn release(id: Id, clock: u64) -> Request {
        Request::by(15, id, &[clock])
    }
}

/// What a call has sent.
#[derive(Clone, Copy, Debug, PartialEq, Eq)]
pub enum Event {
    DeadLetter {
        sequence: u64,
        redelivery: i32,
        cause: bool,
    },
    Message {
        to: Id,
        sequence: u64,
        redelivery: i32,
    },
    Null {
        to: Id,
    },
}

/// Why nothing has happened. A refusal for short buffers cannot be met here.
#[derive(Clone, Copy, Debug, PartialEq, Eq)]
#[repr(u64)]
pub enum Refusal {
    Short = 1,
    NotSound = 2,
    Arguments = 3,
    NumberHeld = 4,
    RowsFull = 5,
    ConsumerHere = 6,
    ConsumersFull = 7,
    ProducersFull = 8,
    CallsUsedUp = 9,
    /// Of a station alone.
    NotOpen = 10,
    ShareUsedUp = 14,
    ReadingsTurned = 17,
}

impl Refusal {
    const ALL: [Refusal; 12] = [
        Refusal::Short,
        Refusal::NotSound,
        Refusal::Arguments,
        Refusal::NumberHeld,
        Refusal::RowsFull,
        Refusal::ConsumerHere,
        Refusal::ConsumersFull,
        Refusal::ProducersFull,
        Refusal::CallsUsedUp,
        Refusal::NotOpen,
        Refusal::ShareUsedUp,
        Refusal::ReadingsTurned,
    ];

    pub fn number(self) -> u64 {
        self as u64
    }

    /// None for 0, which is no refusal.
    pub fn of(number: u64) -> Option<Refusal> {
        Refusal::ALL.into_iter().find(|r| r.number() == number)
    }
}

/// What an accepted call gives.
#[derive(Clone, Copy, Debug)]
pub struct Done<'a> {
    pub answer: u64,
    events: &'a [[u64; 6]],
}

impl Done<'_> {
    pub fn events(&self) -> impl Iterator<Item = Event> + '_ {
        self.events.iter().map(event)
    }
}

/// A waiting entry, as a page lists it.
#[repr(C)]
#[derive(Clone, Copy, Debug, Default, PartialEq, Eq)]
pub struct Line {
    pub sequence: u64,
    pub expiration: i64,
    pub redelivery: i32,
}

/// Two readings of the clock, between which it lies, and two times that expirations are compared with.
#[repr(C)]
#[derive(Clone, Copy, Debug, PartialEq, Eq)]
pub struct Span {
    pub earlier: u64,
    pub later: u64,
    pub from: i64,
    pub to: i64,
}

/// Of what waits: how many have surely expired, perhaps, or are alive, and which expires next, 0 for none.
#[repr(C)]
#[derive(Clone, Copy, Debug, PartialEq, Eq)]
pub struct Outlook {
    pub sure: u64,
    pub perhaps: u64,
    pub alive: u64,
    pub next: u64,
}

#[repr(C)]
#[derive(Clone, Copy, Debug, PartialEq, Eq)]
pub struct Counters {
    pub enqueued: u64,
    pub dequeued: u64,
    pub expired: u64,
    pub discarded: u64,
    pub dispatched: u64,
}

/// A changing function of the library on the buffers of a destination, and one that only reads them.
macro_rules! changing {
    ($d:expr, $name:ident $(, $more:expr)*) => {
        library::$name(
            $d.head.as_mut_ptr(),
            $d.head.len(),
            $d.subs.as_mut_ptr(),
            $d.subs.len(),
            $d.rows.as_mut_ptr(),
            $d.rows.len(),
            $d.events.as_mut_ptr(),
            $d.events.len(),
            $($more),*
        )
    };
}

macro_rules! query {
    ($d:expr, $name:ident $(, $more:expr)*) => {
        library::$name(
            $d.head.as_ptr(),
            $d.head.len(),
            $d.subs.as_ptr(),
            $d.subs.len(),
            $d.rows.as_ptr(),
            $d.rows.len(),
            $($more),*
        )
    };
}

type Called<'a> = Result<Done<'a>, Refusal>;

#[derive(Clone)]
pub struct Destination {
    head: Vec<u64>,
    subs: Vec<[u64; 16]>,
    rows: Vec<[u64; 10]>,
    events: Vec<[u64; 6]>,
}

impl Default for Destination {
    fn default() -> Destination {
        Destination::new()
    }
}

impl Destination {
    /// Neither a queue nor a topic yet: all but `open` is refused as not sound.
    pub fn new() -> Destination {
        Destination {
            head: vec![0; library::destination_head_words()],
            subs: vec![[0; 16]; library::destination_consumers()],
            rows: vec![[0; 10]; library::destination_rows()],
            events: vec![[0; 6]; library::destination_events()],
        }
    }

    /// A state that was kept elsewhere: each call and query tests it.
    pub fn kept(head: &[u64], subs: &[[u64; 16]], rows: &[[u64; 10]]) -> Destination {
        Destination {
            head: head.to_vec(),
            subs: subs.to_vec(),
            rows: rows.to_vec(),
            events: vec![[0; 6]; library::destination_events()],
        }
    }

    fn done(&self, outcome: Outcome) -> Called<'_> {
        match Refusal::of(outcome.refusal) {
            Some(refusal) => Err(refusal),
            None => Ok(Done {
                answer: outcome.answer,
                events: &self.events[..outcome.events],
            }),
        }
    }

    fn call(&mut self, request: Request) -> Called<'_> {
        // Safety: four vectors of this destination, borrowed for the call alone, each with its own length.
        let outcome = unsafe { changing!(self, destination_call, request) };
        self.done(outcome)
    }

    /// `allowance`: by so many milliseconds later than its expiration an entry expires. `share`: rows of each producer connection at most; 0 for all.
    pub fn open(&mut self, kind: Kind, topic_limit: u64, call_limit: u64, clock: u64, allowance: u64, share: u64) -> Called<'_> {
        self.call(Request::open(kind, topic_limit, call_limit, clock, allowance, share))
    }

    pub fn enqueue(&mut self, e: Entry, clock: u64) -> Called<'_> {
        self.call(Request::enqueue(e, clock))
    }

    pub fn join(&mut self, c: Consumer, clock: u64) -> Called<'_> {
        self.call(Request::join(c, clock))
    }

    /// Answers 1 if the consumer was present. `last_delivered`: none if it is not known.
    pub fn leave(&mut self, id: Id, last_delivered: Option<i64>, clock: u64) -> Called<'_> {
        self.call(Request::leave(id, last_delivered, clock))
    }

    pub fn ack(&mut self, id: Id, a: Ack, clock: u64) -> Called<'_> {
        self.call(Request::ack(id, a, clock))
    }

    /// Answers the pull's generation where it waits for a while.
    pub fn pull(&mut self, id: Id, timeout: i64, clock: u64) -> Called<'_> {
        self.call(Request::pull(id, timeout, clock))
    }

    pub fn timeout(&mut self, id: Id, generation: u64) -> Called<'_> {
        self.call(Request::timeout(id, generation))
    }

    pub fn prefetch(&mut self, id: Id, prefetch: i32, clock: u64) -> Called<'_> {
        self.call(Request::prefetch(id, prefetch, clock))
    }

    /// A transaction is rolled back, first half: the marks of what is in flight go.
    pub fn unmark(&mut self, id: Id) -> Called<'_> {
        self.call(Request::unmark(id))
    }

    /// The second half: what is reserved returns.
    pub fn release(&mut self, id: Id, clock: u64) -> Called<'_> {
        self.call(Request::release(id, clock))
    }

    /// Answers how many have expired.
    pub fn sweep(&mut self, clock: u64, maximum: u64) -> Called<'_> {
        self.call(Request::sweep(clock, maximum))
    }

    /// Answers how many were cleared.
    pub fn clear(&mut self) -> Called<'_> {
        self.call(Request::clear())
    }

    pub fn add_producer(&mut self, id: Id) -> Called<'_> {
        self.call(Request::add_producer(id))
    }

    pub fn remove_producer(&mut self, id: Id, clock: u64) -> Called<'_> {
        self.call(Request::remove_producer(id, clock))
    }

    /// Answers 1 for a number that the producer has sent before.
    pub fn duplicate(&mut self, id: Id, number: i64) -> Called<'_> {
        self.call(Request::duplicate(id, number))
    }

    pub fn release_audits(&mut self, connection: u64) -> Called<'_> {
        self.call(Request::release_audits(connection))
    }

    /// Many calls, one after another: the answer and the events of each, or its refusal. The state is tested seldom.
    pub fn calls(&mut self, requests: &[Request]) -> Vec<Result<(u64, Vec<Event>), Refusal>> {
        let mut results = Vec::new();
        let mut events = vec![[0; 6]; 2 * library::destination_events()];
        let mut outcomes = vec![Outcome::default(); requests.len()];
        while results.len() < requests.len() {
            let rest = &requests[results.len()..];
            // Safety: three vectors of this destination and two of this function, each with its own length.
            let done = unsafe {
                library::destination_calls(
                    self.head.as_mut_ptr(),
                    self.head.len(),
                    self.subs.as_mut_ptr(),
                    self.subs.len(),
                    self.rows.as_mut_ptr(),
                    self.rows.len(),
                    events.as_mut_ptr(),
                    events.len(),
                    rest.as_ptr(),
                    rest.len(),
                    outcomes.as_mut_ptr(),
                    outcomes.len(),
                )
            };
            let mut sent = events[..done.events].iter().map(event);
            for o in &outcomes[..done.calls] {
                let own = sent.by_ref().take(o.events).collect();
                results.push(Refusal::of(o.refusal).map_or(Ok((o.answer, own)), Err));
            }
            if done.calls == 0 {
                results.push(self.call(rest[0]).map(|d| (d.answer, d.events().collect())));
            }
        }
        results
    }

    /// The host has discarded an entry before storing it.
    pub fn add_discarded(&mut self) -> Called<'_> {
        // Safety: as in `call`.
        let outcome = unsafe { changing!(self, destination_add_discarded) };
        self.done(outcome)
    }

    /// The host has found an entry expired before storing it.
    pub fn expired_before_storing(&mut self) -> Called<'_> {
        // Safety: as in `call`.
        let outcome = unsafe { changing!(self, destination_expired_before_storing) };
        self.done(outcome)
    }

    pub fn is_queue(&self) -> Result<bool, Refusal> {
        // Safety: three vectors of this destination, which the query only reads, each with its own length.
        yes(unsafe { query!(self, destination_is_queue) })
    }

    pub fn has_consumers(&self) -> Result<bool, Refusal> {
        // Safety: as in `is_queue`.
        yes(unsafe { query!(self, destination_has_consumers) })
    }

    pub fn has_expiring(&self) -> Result<bool, Refusal> {
        // Safety: as in `is_queue`.
        yes(unsafe { query!(self, destination_has_expiring) })
    }

    pub fn message_count(&self) -> Result<u64, Refusal> {
        // Safety: as in `is_queue`.
        answer(unsafe { query!(self, destination_message_count) })
    }

    /// The sizes of the entries that have a copy in any place, each once.
    pub fn bytes_held(&self) -> Result<u64, Refusal> {
        // Safety: as in `is_queue`.
        answer(unsafe { query!(self, destination_bytes_held) })
    }

    pub fn idle_for(&self, clock: u64, seconds: u64) -> Result<bool, Refusal> {
        // Safety: as in `is_queue`.
        yes(unsafe { query!(self, destination_idle_for, clock, seconds) })
    }

    /// The sequence number of the entry that waits at this place.
    pub fn seq_at(&self, index: u64) -> Result<Option<u64>, Refusal> {
        // Safety: as in `is_queue`.
        let found = answer(unsafe { query!(self, destination_seq_at, index) })?;
        Ok((found != 0).then_some(found))
    }

    pub fn counters(&self) -> Result<Counters, Refusal> {
        // Safety: as in `is_queue`.
        let c = unsafe { query!(self, destination_counters) };
        Refusal::of(c.refusal).map_or(Ok(c.counters), Err)
    }

    /// What waits when the clock is only known to lie between two readings, and those that expire between two times.
    pub fn outlook(&self, span: Span) -> Result<(Outlook, Vec<Line>), Refusal> {
        let mut lines = vec![Line::default(); library::destination_outlook_lines()];
        // Safety: as in `is_queue`, and a list with its own length.
        let o = unsafe { query!(self, destination_outlook, lines.as_mut_ptr(), lines.len(), span) };
        lines.truncate(o.count);
        Refusal::of(o.refusal).map_or(Ok((o.outlook, lines)), Err)
    }

    /// How many entries wait, and at most 50 of them from a place on.
    pub fn page(&self, offset: u64, limit: u64) -> Result<(u64, Vec<Line>), Refusal> {
        let mut lines = vec![Line::default(); library::destination_page_lines()];
        // Safety: as in `is_queue`, and a list of its own.
        let p = unsafe { query!(self, destination_page, lines.as_mut_ptr(), lines.len(), offset, limit) };
        lines.truncate(p.count);
        Refusal::of(p.refusal).map_or(Ok((p.total, lines)), Err)
    }
}

fn answer(asked: Asked) -> Result<u64, Refusal> {
    Refusal::of(asked.refusal).map_or(Ok(asked.answer), Err)
}

fn yes(asked: Asked) -> Result<bool, Refusal> {
    answer(asked).map(|n| n != 0)
}

/// An event by its words.
pub fn event(words: &[u64; 6]) -> Event {
    let to = Id {
        connection: words[1],
        session: words[2] as i64,
        value: words[3] as i64,
    };
    match words[0] {
        1 => Event::DeadLetter {
            sequence: words[1],
            redelivery: words[2] as i32,
            cause: words[3] != 0,
        },
        2 => Event::Message {
            to,
            sequence: words[4],
            redelivery: words[5] as i32,
        },
        _ => Event::Null { to },
    }
}

/// Each method beside document 01's words for it, on two copies of one state. Built with `rustc --test`.
#[cfg(test)]
mod tests {
    use super::*;

    const M1: u64 = u64::MAX;
    const ID: Id = Id { connection: 7, session: -2, value: -3 };
    const ENTRY: Entry = Entry { sequence: 41, expiration: -1, persistent: true, producer: 42, match_word: 43, redelivery: -2, size: 44 };
    const PULLER: Consumer = Consumer { id: ID, prefetch: -1, selector: None, no_local: false, browser: false };
    const BROWSER: Consumer = Consumer {
        id: Id { connection: 8, session: 1, value: 2 },
        prefetch: 5,
        selector: Some(5),
        no_local: true,
        browser: true,
    };
    const LAST: Ack = Ack { kind: AckType::Individual, transacted: false, first: None, last: Some(41), cause: false };
    const ALL: Ack = Ack { kind: AckType::Expired, transacted: true, first: Some(-1), last: Some(-2), cause: true };

    fn same(d: &mut Destination, method: impl Fn(&mut Destination) -> Called<'_>, code: u64, words: &[u64]) {
        let mut other = d.clone();
        let done = method(d).expect("accepted");
        let raw = other.call(Request::new(code, words)).expect("accepted");
        assert_eq!((done.answer, done.events), (raw.answer, raw.events), "code {code}");
        assert_eq!((&d.head, &d.subs, &d.rows), (&other.head, &other.subs, &other.rows), "code {code}");
    }

    #[test]
    fn words() {
        let d = &mut Destination::new();
        same(d, |d| d.open(Kind::Topic, 2, 30, 4, 5, 6), 0, &[1, 2, 30, 4, 5, 6]);
        same(d, |d| d.open(Kind::Queue, 0, 100, 4, 0, 0), 0, &[0, 0, 100, 4]);
        same(d, |d| d.enqueue(ENTRY, 40), 1, &[41, M1, 1, 42, 43, M1 - 1, 40, 44]);
        same(d, |d| d.join(BROWSER, 40), 2, &[8, 1, 2, 5, 5, 3, 40]);
        same(d, |d| d.join(PULLER, 40), 2, &[7, M1 - 1, M1 - 2, M1, 64, 0, 40]);
        same(d, |d| d.pull(ID, -1, 40), 5, &[7, M1 - 1, M1 - 2, M1, 40]);
        same(d, |d| d.pull(ID, 5, 41), 5, &[7, M1 - 1, M1 - 2, 5, 41]);
        same(d, |d| d.timeout(ID, 1), 6, &[7, M1 - 1, M1 - 2, 1]);
        same(d, |d| d.ack(ID, ALL, 42), 4, &[7, M1 - 1, M1 - 2, 6 + 256 + 512 + 1024 + 2048, M1, M1 - 1, 42]);
        same(d, |d| d.ack(ID, LAST, 42), 4, &[7, M1 - 1, M1 - 2, 4 + 1024, 0, 41, 42]);
        same(d, |d| d.prefetch(ID, 3, 43), 7, &[7, M1 - 1, M1 - 2, 3, 43]);
        same(d, |d| d.leave(ID, None, 44), 3, &[7, M1 - 1, M1 - 2, M1, 44]);
        same(d, |d| d.leave(ID, Some(9), 44), 3, &[7, M1 - 1, M1 - 2, 9, 44]);
        same(d, |d| d.unmark(ID), 8, &[7, M1 - 1, M1 - 2]);
        same(d, |d| d.release(ID, 45), 15, &[7, M1 - 1, M1 - 2, 45]);
        same(d, |d| d.sweep(46, 512), 9, &[46, 512]);
        same(d, |d| d.clear(), 10, &[]);
        same(d, |d| d.add_producer(ID), 11, &[7, M1 - 1, M1 - 2]);
        same(d, |d| d.duplicate(ID, -1), 13, &[7, M1 - 1, M1 - 2, M1]);
        same(d, |d| d.release_audits(7), 14, &[7]);
        same(d, |d| d.remove_producer(ID, 47), 12, &[7, M1 - 1, M1 - 2, 47]);
    }

    #[test]
    fn many() {
        let requests = [
            Request::clear(),
            Request::open(Kind::Queue, 0, 100, 0, 0, 2),
            Request::enqueue(ENTRY, 1),
            Request::enqueue(ENTRY, 1),
            Request::join(Consumer { prefetch: 3, ..PULLER }, 2),
            Request::enqueue(Entry { sequence: 42, ..ENTRY }, 3),
            Request::enqueue(Entry { sequence: 43, ..ENTRY }, 3),
            Request::leave(ID, None, 4),
        ];
        let message = |sequence| Event::Message { to: ID, sequence, redelivery: -2 };
        let expected = [
            Err(Refusal::NotSound),
            Ok((0, vec![])),
            Ok((0, vec![])),
            Err(Refusal::NumberHeld),
            Ok((0, vec![message(41)])),
            Ok((0, vec![message(42)])),
            Err(Refusal::ShareUsedUp),
            Ok((1, vec![])),
        ];
        assert_eq!(Destination::new().calls(&requests), expected);
    }

    #[test]
    fn questions() {
        let mut d = Destination::new();
        assert_eq!(d.is_queue(), Err(Refusal::NotSound));
        assert_eq!((d.counters(), d.bytes_held()), (Err(Refusal::NotSound), Err(Refusal::NotSound)));
        assert_eq!(d.page(0, 1), Err(Refusal::NotSound));
        d.open(Kind::Topic, 0, 100, 0, 0, 0).expect("accepted");
        assert_eq!((d.is_queue(), d.has_consumers(), d.has_expiring()), (Ok(false), Ok(false), Ok(false)));
        d.open(Kind::Queue, 0, 100, 5000, 0, 0).expect("accepted");
        assert_eq!((d.idle_for(8000, 3), d.idle_for(7999, 3), d.idle_for(u64::MAX, 3)), (Ok(true), Ok(false), Err(Refusal::Arguments)));
        d.add_discarded().expect("accepted");
        d.expired_before_storing().expect("accepted");
        d.expired_before_storing().expect("accepted");
        for sequence in [12, 11, 13] {
            d.enqueue(Entry { sequence, expiration: 9000, redelivery: -1, size: 100, ..Entry::default() }, 6000).expect("accepted");
        }
        assert_eq!((d.is_queue(), d.has_consumers(), d.has_expiring()), (Ok(true), Ok(false), Ok(true)));
        assert_eq!((d.seq_at(0), d.seq_at(2), d.seq_at(3)), (Ok(Some(11)), Ok(Some(13)), Ok(None)));
        let line = |sequence| Line { sequence, expiration: 9000, redelivery: -1 };
        assert_eq!(d.page(1, 60), Ok((3, vec![line(12), line(13)])));
        let span = Span { earlier: 8999, later: 9000, from: 9000, to: 9000 };
        assert_eq!(d.outlook(span), Ok((Outlook { sure: 0, perhaps: 3, alive: 0, next: 0 }, vec![line(11), line(12), line(13)])));
        assert_eq!(d.outlook(Span { earlier: 9001, ..span }), Err(Refusal::ReadingsTurned));
        d.join(PULLER, 6000).expect("accepted");
        d.pull(ID, 0, 6000).expect("accepted");
        assert_eq!((d.message_count(), d.has_consumers(), d.bytes_held()), (Ok(3), Ok(true), Ok(300)));
        d.ack(ID, Ack { last: Some(11), ..LAST }, 6000).expect("accepted");
        assert_eq!((d.message_count(), d.bytes_held()), (Ok(2), Ok(200)));
        let counters = Counters { enqueued: 3, dequeued: 1, expired: 2, discarded: 1, dispatched: 1 };
        assert_eq!(d.counters(), Ok(counters));
    }
}
