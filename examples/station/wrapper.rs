//! The station library for Rust: up to eight queues and topics that own their buffers together. include/station.h and docs/LIBRARY.md say what the calls do; requests,
//! identifiers, events and refusals are those of the destination's wrapper. Each `unsafe` lends the library the vectors of one station, with their true lengths.

#[path = "../destination/wrapper.rs"]
pub mod destination;

use destination::{Ack, Consumer, Destination, Entry, Event, Id, Kind, Refusal, Request};

mod library {
    use super::Request;

    #[repr(C)]
    #[derive(Clone, Copy, Default)]
    pub struct Outcome {
        pub refusal: u64,
        pub answer: u64,
        pub events: usize,
    }

    #[repr(C)]
    #[derive(Clone, Copy)]
    pub struct ToldOutcome {
        pub refusal: u64,
        pub answer: u64,
        pub events: usize,
        pub letters: usize,
    }

    #[repr(C)]
    #[derive(Clone, Copy)]
    pub struct Done {
        pub calls: usize,
        pub events: usize,
    }

    #[repr(C)]
    #[derive(Clone, Copy)]
    pub struct Numbered {
        pub refusal: u64,
        pub numbers: super::Numbers,
    }

    const _: () = assert!(size_of::<Outcome>() == 24 && size_of::<ToldOutcome>() == 32 && size_of::<Done>() == 16 && size_of::<Numbered>() == 24);

    unsafe extern "C" {
        pub safe fn station_head_words() -> usize;
        pub safe fn station_consumers() -> usize;
        pub safe fn station_rows() -> usize;
        pub safe fn station_own_words() -> usize;
        pub safe fn station_events() -> usize;
        pub fn station_start(
            heads: *const u64,
            heads_words: usize,
            subs: *const [u64; 16],
            subs_length: usize,
            rows: *const [u64; 10],
            rows_length: usize,
            own: *mut u64,
            own_words: usize,
            events: *const [u64; 6],
            events_length: usize,
        ) -> u64;
        pub fn station_call(
            heads: *mut u64,
            heads_words: usize,
            subs: *mut [u64; 16],
            subs_length: usize,
            rows: *mut [u64; 10],
            rows_length: usize,
            own: *mut u64,
            own_words: usize,
            events: *mut [u64; 6],
            events_length: usize,
            number: u64,
            request: Request,
        ) -> Outcome;
        pub fn station_call_told(
            heads: *mut u64,
            heads_words: usize,
            subs: *mut [u64; 16],
            subs_length: usize,
            rows: *mut [u64; 10],
            rows_length: usize,
            own: *mut u64,
            own_words: usize,
            events: *mut [u64; 6],
            events_length: usize,
            told: *mut [u64; 3],
            told_length: usize,
            number: u64,
            request: Request,
        ) -> ToldOutcome;
        pub fn station_calls(
            heads: *mut u64,
            heads_words: usize,
            subs: *mut [u64; 16],
            subs_length: usize,
            rows: *mut [u64; 10],
            rows_length: usize,
            own: *mut u64,
            own_words: usize,
            events: *mut [u64; 6],
            events_length: usize,
            requests: *const Request,
            requests_length: usize,
            outcomes: *mut Outcome,
            outcomes_length: usize,
        ) -> Done;
        pub fn station_add_discarded(
            heads: *mut u64,
            heads_words: usize,
            subs: *mut [u64; 16],
            subs_length: usize,
            rows: *mut [u64; 10],
            rows_length: usize,
            own: *const u64,
            own_words: usize,
            events: *mut [u64; 6],
            events_length: usize,
            number: u64,
        ) -> Outcome;
        pub fn station_expired_before_storing(
            heads: *mut u64,
            heads_words: usize,
            subs: *mut [u64; 16],
            subs_length: usize,
            rows: *mut [u64; 10],
            rows_length: usize,
            own: *const u64,
            own_words: usize,
            events: *mut [u64; 6],
            events_length: usize,
            number: u64,
        ) -> Outcome;
        pub fn station_numbers(
            heads: *const u64,
            heads_words: usize,
            subs: *const [u64; 16],
            subs_length: usize,
            rows: *const [u64; 10],
            rows_length: usize,
            own: *const u64,
            own_words: usize,
        ) -> Numbered;
    }
}

use library::Outcome;

/// How many destinations a station has.
pub const DESTINATIONS: usize = 8;

/// How many dead letters a call has at most.
pub const LETTERS: usize = 512;

/// The station's own numbers: the sequence number that is given next, and how many dead letters were lost.
#[repr(C)]
#[derive(Clone, Copy, Debug, PartialEq, Eq)]
pub struct Numbers {
    pub next: u64,
    pub lost: u64,
}

/// What an accepted call gives: its answer, and its events with the numbers of their destinations.
pub struct Done<'a> {
    pub answer: u64,
    events: &'a [[u64; 6]],
}

impl Done<'_> {
    pub fn events(&self) -> impl Iterator<Item = (u64, Event)> + '_ {
        self.events.iter().map(event)
    }
}

/// An event with the number of its destination.
fn event(e: &[u64; 6]) -> (u64, Event) {
    (e[0] / 256, destination::event(&[e[0] % 256, e[1], e[2], e[3], e[4], e[5]]))
}

/// What became of a dead letter: the number that it had, the one that it got if one was left, and the destination where it is stored unless it is lost.
#[derive(Clone, Copy, Debug, PartialEq, Eq)]
pub struct Told {
    pub had: u64,
    pub got: Option<u64>,
    pub destination: Option<u64>,
}

impl Told {
    fn of([had, got, destination]: [u64; 3]) -> Told {
        Told { had, got: (got != 0).then_some(got), destination: (destination < DESTINATIONS as u64).then_some(destination) }
    }
}

/// One of many calls: its answer and its events, or its refusal.
pub type Listed = Result<(u64, Vec<(u64, Event)>), Refusal>;

type Called<'a> = Result<Done<'a>, Refusal>;

/// How a destination is opened: as `Destination::open`, and with the destination that its dead letters go to.
#[derive(Clone, Copy, Debug)]
pub struct Opening {
    pub kind: Kind,
    pub topic_limit: u64,
    pub call_limit: u64,
    pub allowance: u64,
    pub share: u64,
    pub dead_letters: Option<u64>,
}

impl Opening {
    pub fn request(self, clock: u64) -> Request {
        let mut request = Request::open(self.kind, self.topic_limit, self.call_limit, clock, self.allowance, self.share);
        request.words[6] = self.dead_letters.map_or(8, |k| if k < 8 { k } else { 9 });
        request
    }
}

/// A changing function of the library on the buffers of a station.
macro_rules! changing {
    ($s:expr, $name:ident, $own:expr $(, $more:expr)*) => {
        library::$name(
            $s.heads.as_mut_ptr(),
            $s.heads.len(),
            $s.subs.as_mut_ptr(),
            $s.subs.len(),
            $s.rows.as_mut_ptr(),
            $s.rows.len(),
            $own,
            $s.own.len(),
            $s.events.as_mut_ptr(),
            $s.events.len(),
            $($more),*
        )
    };
}

#[derive(Clone)]
pub struct Station {
    heads: Vec<u64>,
    subs: Vec<[u64; 16]>,
    rows: Vec<[u64; 10]>,
    own: Vec<u64>,
    events: Vec<[u64; 6]>,
}

impl Default for Station {
    fn default() -> Station {
        Station::new()
    }
}

impl Station {
    /// Started, with none open.
    pub fn new() -> Station {
        let mut s = Station {
            heads: vec![0; library::station_head_words()],
            subs: vec![[0; 16]; library::station_consumers()],
            rows: vec![[0; 10]; library::station_rows()],
            own: vec![0; library::station_own_words()],
            events: vec![[0; 6]; library::station_events()],
        };
        s.start();
        s
    }

    /// Starts anew: none is open, the first number is 1, none is lost.
    pub fn start(&mut self) {
        // Safety: five vectors of this station, each with its own length.
        let refusal = unsafe {
            library::station_start(
                self.heads.as_ptr(),
                self.heads.len(),
                self.subs.as_ptr(),
                self.subs.len(),
                self.rows.as_ptr(),
                self.rows.len(),
                self.own.as_mut_ptr(),
                self.own.len(),
                self.events.as_ptr(),
                self.events.len(),
            )
        };
        assert_eq!(refusal, 0, "the vectors have their lengths");
    }

    fn done(&self, o: Outcome) -> Called<'_> {
        Refusal::of(o.refusal).map_or(Ok(Done { answer: o.answer, events: &self.events[..o.events] }), Err)
    }

    /// Any request of a destination: the wrapper of destinations makes them.
    pub fn call(&mut self, number: u64, request: Request) -> Called<'_> {
        // Safety: five vectors of this station, borrowed for the call alone, each with its own length.
        let outcome = unsafe { changing!(self, station_call, self.own.as_mut_ptr(), number, request) };
        self.done(outcome)
    }

    /// The same, with what became of the call's dead letters, in the order of their events.
    pub fn call_told(&mut self, number: u64, request: Request) -> Result<(Done<'_>, Vec<Told>), Refusal> {
        let mut told = vec![[0; 3]; LETTERS];
        // Safety: as in `call`, with a vector of this function, which has its own length too.
        let o = unsafe { changing!(self, station_call_told, self.own.as_mut_ptr(), told.as_mut_ptr(), told.len(), number, request) };
        let done = self.done(Outcome { refusal: o.refusal, answer: o.answer, events: o.events })?;
        Ok((done, told[..o.letters].iter().copied().map(Told::of).collect()))
    }

    pub fn open(&mut self, number: u64, o: Opening, clock: u64) -> Called<'_> {
        self.call(number, o.request(clock))
    }

    /// The station gives the entry its number: the one that `numbers` says before. `entry.sequence` is 0.
    pub fn enqueue(&mut self, number: u64, entry: Entry, clock: u64) -> Called<'_> {
        self.call(number, Request::enqueue(entry, clock))
    }

    pub fn join(&mut self, number: u64, consumer: Consumer, clock: u64) -> Called<'_> {
        self.call(number, Request::join(consumer, clock))
    }

    pub fn ack(&mut self, number: u64, id: Id, ack: Ack, clock: u64) -> Called<'_> {
        self.call(number, Request::ack(id, ack, clock))
    }

    /// Many calls, one after another, each with the number of its destination: the answer and the events of each, or its refusal. The station is tested seldom.
    pub fn calls(&mut self, requests: &[(u64, Request)]) -> Vec<Listed> {
        let mut results = Vec::new();
        let mut events = vec![[0; 6]; 2 * library::station_events()];
        let mut outcomes = vec![Outcome::default(); requests.len()];
        // Every number above 7 is refused alike, and so is every code that is none: no larger one is needed, and these fit.
        let listed: Vec<Request> = requests.iter().map(|&(k, r)| Request { code: r.code.min(255) + 256 * k.min(8), ..r }).collect();
        while results.len() < requests.len() {
            let rest = &listed[results.len()..];
            // Safety: four vectors of this station and three of this function, each with its own length.
            let done = unsafe {
                library::station_calls(
                    self.heads.as_mut_ptr(),
                    self.heads.len(),
                    self.subs.as_mut_ptr(),
                    self.subs.len(),
                    self.rows.as_mut_ptr(),
                    self.rows.len(),
                    self.own.as_mut_ptr(),
                    self.own.len(),
                    events.as_mut_ptr(),
                    events.len(),
                    rest.as_ptr(),
                    rest.len(),
                    outcomes.as_mut_ptr(),
                    outcomes.len(),
                )
            };
            let mut sent = events[..done.events].iter().map(event);
            for o in &outcomes[..done.calls] {
                let own = sent.by_ref().take(o.events).collect();
                results.push(Refusal::of(o.refusal).map_or(Ok((o.answer, own)), Err));
            }
            if done.calls == 0 {
                let (k, r) = requests[results.len()];
                results.push(self.call(k, r).map(|d| (d.answer, d.events().collect())));
            }
        }
        results
    }

    /// The host has discarded an entry before storing it.
    pub fn add_discarded(&mut self, number: u64) -> Called<'_> {
        // Safety: as in `call`.
        let outcome = unsafe { changing!(self, station_add_discarded, self.own.as_ptr(), number) };
        self.done(outcome)
    }

    /// The host has found an entry expired before storing it.
    pub fn expired_before_storing(&mut self, number: u64) -> Called<'_> {
        // Safety: as in `call`.
        let outcome = unsafe { changing!(self, station_expired_before_storing, self.own.as_ptr(), number) };
        self.done(outcome)
    }

    pub fn numbers(&self) -> Result<Numbers, Refusal> {
        // Safety: four vectors of this station, which the query only reads, each with its own length.
        let n = unsafe {
            library::station_numbers(
                self.heads.as_ptr(),
                self.heads.len(),
                self.subs.as_ptr(),
                self.subs.len(),
                self.rows.as_ptr(),
                self.rows.len(),
                self.own.as_ptr(),
                self.own.len(),
            )
        };
        Refusal::of(n.refusal).map_or(Ok(n.numbers), Err)
    }

    pub fn is_open(&self, k: usize) -> bool {
        k < DESTINATIONS && self.own[k] != 0
    }

    /// A copy of an open destination, to ask what it holds.
    pub fn destination(&self, k: usize) -> Option<Destination> {
        let part = |n: usize| n / DESTINATIONS * k..n / DESTINATIONS * (k + 1);
        let (heads, subs, rows) = (&self.heads, &self.subs, &self.rows);
        self.is_open(k).then(|| Destination::kept(&heads[part(heads.len())], &subs[part(subs.len())], &rows[part(rows.len())]))
    }
}

/// Built with `rustc --test`.
#[cfg(test)]
mod tests {
    use super::*;
    use destination::AckType;

    const ID: Id = Id { connection: 7, session: -2, value: -3 };
    const ENTRY: Entry = Entry { sequence: 0, expiration: 0, persistent: true, producer: 42, match_word: 43, redelivery: -2, size: 44 };
    const CONSUMER: Consumer = Consumer { id: ID, prefetch: 5, selector: None, no_local: false, browser: false };
    const REJECTS: Ack = Ack { kind: AckType::Poison, transacted: false, first: None, last: Some(1), cause: true };
    const QUEUE: Opening = Opening { kind: Kind::Queue, topic_limit: 0, call_limit: 100, allowance: 0, share: 0, dead_letters: None };

    fn events(done: Called<'_>) -> Vec<(u64, Event)> {
        done.expect("accepted").events().collect()
    }

    /// A letter goes from 2 to 6, where a consumer waits for it, with the number 2.
    #[test]
    fn letters() {
        let s = &mut Station::new();
        assert_eq!(s.enqueue(2, ENTRY, 0).err(), Some(Refusal::NotOpen));
        s.open(2, Opening { dead_letters: Some(6), ..QUEUE }, 0).expect("accepted");
        s.open(6, QUEUE, 0).expect("accepted");
        assert_eq!(events(s.enqueue(2, ENTRY, 1)), []);
        assert_eq!(events(s.join(6, CONSUMER, 2)), []);
        let message = |sequence| Event::Message { to: ID, sequence, redelivery: -2 };
        assert_eq!(events(s.join(2, CONSUMER, 2)), [(2, message(1))]);
        let dead = Event::DeadLetter { sequence: 1, redelivery: -2, cause: true };
        assert_eq!(events(s.ack(2, ID, REJECTS, 3)), [(2, dead), (6, message(2))]);
        assert_eq!(s.numbers(), Ok(Numbers { next: 3, lost: 0 }));
        s.ack(6, ID, Ack { last: Some(2), ..REJECTS }, 4).expect("accepted");
        assert_eq!(s.numbers(), Ok(Numbers { next: 4, lost: 1 }));
    }

    /// What became of letters: 6 takes one, as its share is 1; the second is lost, and so is the third, which has no number.
    #[test]
    fn told() {
        let s = &mut Station::new();
        let rejects = Request::ack(ID, Ack { last: Some(3), ..REJECTS }, 3);
        assert_eq!(s.call_told(2, rejects).err(), Some(Refusal::NotOpen));
        s.open(2, Opening { dead_letters: Some(6), ..QUEUE }, 0).expect("accepted");
        s.open(6, Opening { share: 1, ..QUEUE }, 0).expect("accepted");
        for _ in 0..3 {
            let (_, letters) = s.call_told(2, Request::enqueue(ENTRY, 1)).expect("accepted");
            assert_eq!(letters, []);
        }
        s.join(2, CONSUMER, 2).expect("accepted");
        s.own[16] = (1 << 63) - 2;
        let called = &mut s.clone();
        let (done, letters) = s.call_told(2, rejects).expect("accepted");
        let last = (1 << 63) - 1;
        let expected = [
            Told { had: 1, got: Some(last - 1), destination: Some(6) },
            Told { had: 2, got: Some(last), destination: None },
            Told { had: 3, got: None, destination: None },
        ];
        assert_eq!(letters, expected);
        assert_eq!(done.events().collect::<Vec<_>>(), events(called.call(2, rejects)));
        assert_eq!(s.numbers(), Ok(Numbers { next: 1 << 63, lost: 2 }));
        assert!(s.heads == called.heads && s.subs == called.subs && s.rows == called.rows && s.own == called.own && s.events == called.events);
    }

    /// The same as `letters`, at once.
    #[test]
    fn many() {
        let message = |sequence| Event::Message { to: ID, sequence, redelivery: -2 };
        let dead = Event::DeadLetter { sequence: 1, redelivery: -2, cause: true };
        let calls = [
            (2, Request::enqueue(ENTRY, 0)),
            (2, Opening { dead_letters: Some(6), ..QUEUE }.request(0)),
            (6, QUEUE.request(0)),
            (8, QUEUE.request(0)),
            (2, Request::enqueue(ENTRY, 1)),
            (6, Request::join(CONSUMER, 2)),
            (2, Request::join(CONSUMER, 2)),
            (2, Request::ack(ID, REJECTS, 3)),
            (u64::MAX, Request::clear()),
            (6, Request::ack(ID, Ack { last: Some(2), ..REJECTS }, 4)),
        ];
        let expected = [
            Err(Refusal::NotOpen),
            Ok((0, vec![])),
            Ok((0, vec![])),
            Err(Refusal::NotOpen),
            Ok((0, vec![])),
            Ok((0, vec![])),
            Ok((0, vec![(2, message(1))])),
            Ok((0, vec![(2, dead), (6, message(2))])),
            Err(Refusal::NotOpen),
            Ok((0, vec![(6, Event::DeadLetter { sequence: 2, redelivery: -2, cause: true })])),
        ];
        let s = &mut Station::new();
        assert_eq!(s.calls(&calls), expected);
        assert_eq!(s.numbers(), Ok(Numbers { next: 4, lost: 1 }));
        s.own[16] = 0;
        assert_eq!(s.calls(&[(2, Request::clear()), (2, QUEUE.request(9))]), [Err(Refusal::NotSound), Ok((0, vec![]))]);
    }

    /// What a destination holds, by the queries of the other library.
    #[test]
    fn parts() {
        let s = &mut Station::new();
        s.open(7, QUEUE, 0).expect("accepted");
        s.enqueue(7, ENTRY, 1).expect("accepted");
        s.add_discarded(7).expect("accepted");
        s.expired_before_storing(7).expect("accepted");
        let d = s.destination(7).expect("open");
        assert_eq!((d.message_count(), d.bytes_held(), d.seq_at(0)), (Ok(1), Ok(44), Ok(Some(1))));
        let c = d.counters().expect("sound");
        assert_eq!((c.enqueued, c.discarded, c.expired), (1, 1, 1));
        assert!(s.destination(0).is_none() && s.destination(8).is_none());
    }

    #[test]
    fn refusals() {
        let s = &mut Station::new();
        assert_eq!(s.open(8, QUEUE, 0).err(), Some(Refusal::NotOpen));
        assert_eq!(s.open(0, Opening { dead_letters: Some(8), ..QUEUE }, 0).err(), Some(Refusal::Arguments));
        s.open(0, QUEUE, 0).expect("accepted");
        assert_eq!(s.enqueue(0, Entry { sequence: 1, ..ENTRY }, 0).err(), Some(Refusal::Arguments));
        s.own[16] = 0;
        let before = s.clone();
        assert_eq!((s.enqueue(0, ENTRY, 0).err(), s.numbers()), (Some(Refusal::NotSound), Err(Refusal::NotSound)));
        assert!(s.heads == before.heads && s.subs == before.subs && s.rows == before.rows && s.own == before.own && s.events == before.events);
        s.start();
        assert_eq!((s.numbers(), s.is_open(0)), (Ok(Numbers { next: 1, lost: 0 }), false));
    }
}
