//! The proved engine, linked as a static library: its lent buffers, a call on them, and what they
//! hold. docs/LAYOUT.md has the buffers word by word.

use super::callfile::Call;
use super::engine::Event;
use super::host::{EntryNumbers, Id};
use super::whole::{InflightNumbers, SubNumbers, Whole};

pub const HEAD: usize = 8347;
pub const CONSUMERS: usize = 32;
pub const ROWS: usize = 512;
pub const EVENTS: usize = 545;

pub const PRODUCERS_AT: usize = 17;
pub const AUDITS_AT: usize = 113;
pub const AUDIT: usize = 1029;
pub const WINDOW: usize = 1024;
pub const ALLOWANCE_AT: usize = 8345;
pub const SHARE_AT: usize = 8346;

/// The word of a row that holds the entry's size.
pub const SIZE_AT: usize = 9;

pub type SubRow = [u64; 16];
pub type Row = [u64; 10];
pub type EventRow = [u64; 6];

/// A call as the library takes it.
#[repr(C)]
#[derive(Clone, Copy)]
pub struct CallWords {
    pub code: u64,
    pub words: [u64; 8],
}

impl From<&Call> for CallWords {
    fn from(call: &Call) -> CallWords {
        CallWords {
            code: call.code,
            words: call.args,
        }
    }
}

#[repr(C)]
#[derive(Clone, Copy, Debug, Default, PartialEq)]
pub struct Outcome {
    pub refusal: u64,
    pub answer: u64,
    pub events: usize,
}

/// How many calls of a batch were done, and how many events they have written.
#[repr(C)]
#[derive(Clone, Copy, Debug, PartialEq)]
pub struct Done {
    pub calls: usize,
    pub events: usize,
}

/// What a query answers.
#[repr(C)]
#[derive(Clone, Copy, Debug, PartialEq)]
pub struct Asked {
    pub refusal: u64,
    pub answer: u64,
}

#[repr(C)]
#[derive(Clone, Copy, Debug, PartialEq)]
pub struct Counters {
    pub refusal: u64,
    /// Enqueued, dequeued, expired, discarded, dispatched.
    pub stats: [u64; 5],
}

#[repr(C)]
#[derive(Clone, Copy, Debug, PartialEq)]
pub struct Paged {
    pub refusal: u64,
    pub total: u64,
    pub count: usize,
}

/// A page's line.
#[repr(C)]
#[derive(Clone, Copy, Debug, PartialEq)]
pub struct Line {
    pub sequence: u64,
    pub expiration: i64,
    pub redelivery: i32,
}

pub const PAGE_LINES: usize = 50;

/// Two readings of the clock, and two times.
#[repr(C)]
#[derive(Clone, Copy, Debug)]
pub struct Span {
    pub earlier: u64,
    pub later: u64,
    pub from: i64,
    pub to: i64,
}

#[repr(C)]
#[derive(Clone, Copy, Debug, Default, PartialEq)]
pub struct Outlooked {
    pub refusal: u64,
    pub sure: u64,
    pub perhaps: u64,
    pub alive: u64,
    pub next: u64,
    pub count: usize,
}

impl Span {
    pub fn new(earlier: u64, later: u64, (from, to): (i64, i64)) -> Span {
        Span {
            earlier,
            later,
            from,
            to,
        }
    }
}

impl Outlooked {
    /// Beside a refusal all is 0.
    pub fn refused(refusal: u64) -> Outlooked {
        Outlooked {
            refusal,
            ..Outlooked::default()
        }
    }
}

pub const OUTLOOK_LINES: usize = 512;

type Ask = unsafe extern "C" fn(*const u64, usize, *const SubRow, usize, *const Row, usize) -> Asked;

type Uncoded = unsafe extern "C" fn(
    *mut u64,
    usize,
    *mut SubRow,
    usize,
    *mut Row,
    usize,
    *mut EventRow,
    usize,
) -> Outcome;

#[link(name = "destination", kind = "static")]
extern "C" {
    fn destination_is_queue(
        head: *const u64,
        head_length: usize,
        subs: *const SubRow,
        subs_length: usize,
        rows: *const Row,
        rows_length: usize,
    ) -> Asked;

    fn destination_has_consumers(
        head: *const u64,
        head_length: usize,
        subs: *const SubRow,
        subs_length: usize,
        rows: *const Row,
        rows_length: usize,
    ) -> Asked;

    fn destination_has_expiring(
        head: *const u64,
        head_length: usize,
        subs: *const SubRow,
        subs_length: usize,
        rows: *const Row,
        rows_length: usize,
    ) -> Asked;

    fn destination_message_count(
        head: *const u64,
        head_length: usize,
        subs: *const SubRow,
        subs_length: usize,
        rows: *const Row,
        rows_length: usize,
    ) -> Asked;

    fn destination_bytes_held(
        head: *const u64,
        head_length: usize,
        subs: *const SubRow,
        subs_length: usize,
        rows: *const Row,
        rows_length: usize,
    ) -> Asked;

    fn destination_seq_at(
        head: *const u64,
        head_length: usize,
        subs: *const SubRow,
        subs_length: usize,
        rows: *const Row,
        rows_length: usize,
        index: u64,
    ) -> Asked;

    fn destination_idle_for(
        head: *const u64,
        head_length: usize,
        subs: *const SubRow,
        subs_length: usize,
        rows: *const Row,
        rows_length: usize,
        clock: u64,
        secs: u64,
    ) -> Asked;

    fn destination_counters(
        head: *const u64,
        head_length: usize,
        subs: *const SubRow,
        subs_length: usize,
        rows: *const Row,
        rows_length: usize,
    ) -> Counters;

    fn destination_page(
        head: *const u64,
        head_length: usize,
        subs: *const SubRow,
        subs_length: usize,
        rows: *const Row,
        rows_length: usize,
        lines: *mut Line,
        lines_length: usize,
        offset: u64,
        limit: u64,
    ) -> Paged;

    fn destination_outlook(
        head: *const u64,
        head_length: usize,
        subs: *const SubRow,
        subs_length: usize,
        rows: *const Row,
        rows_length: usize,
        lines: *mut Line,
        lines_length: usize,
        span: Span,
    ) -> Outlooked;

    fn destination_add_discarded(
        head: *mut u64,
        head_length: usize,
        subs: *mut SubRow,
        subs_length: usize,
        rows: *mut Row,
        rows_length: usize,
        events: *mut EventRow,
        events_length: usize,
    ) -> Outcome;

    fn destination_expired_before_storing(
        head: *mut u64,
        head_length: usize,
        subs: *mut SubRow,
        subs_length: usize,
        rows: *mut Row,
        rows_length: usize,
        events: *mut EventRow,
        events_length: usize,
    ) -> Outcome;

    fn destination_calls(
        head: *mut u64,
        head_length: usize,
        subs: *mut SubRow,
        subs_length: usize,
        rows: *mut Row,
        rows_length: usize,
        events: *mut EventRow,
        events_length: usize,
        words: *const CallWords,
        words_length: usize,
        outcomes: *mut Outcome,
        outcomes_length: usize,
    ) -> Done;

    fn destination_call(
        head: *mut u64,
        head_length: usize,
        subs: *mut SubRow,
        subs_length: usize,
        rows: *mut Row,
        rows_length: usize,
        events: *mut EventRow,
        events_length: usize,
        call: CallWords,
    ) -> Outcome;
}

/// A state in lent buffers, and an event list.
#[derive(Clone, PartialEq)]
pub struct Lent {
    pub head: Vec<u64>,
    pub subs: Vec<SubRow>,
    pub rows: Vec<Row>,
    pub events: Vec<EventRow>,
}

impl Default for Lent {
    fn default() -> Lent {
        Lent::new()
    }
}

impl Lent {
    pub fn new() -> Lent {
        Lent {
            head: vec![0; HEAD],
            subs: vec![[0; 16]; CONSUMERS],
            rows: vec![[0; 10]; ROWS],
            events: vec![[0; 6]; EVENTS],
        }
    }

    #[inline]
    pub fn call(&mut self, call: CallWords) -> Outcome {
        // Each pointer comes with the length of what it points to, and nothing else refers to it.
        unsafe {
            destination_call(
                self.head.as_mut_ptr(),
                self.head.len(),
                self.subs.as_mut_ptr(),
                self.subs.len(),
                self.rows.as_mut_ptr(),
                self.rows.len(),
                self.events.as_mut_ptr(),
                self.events.len(),
                call,
            )
        }
    }

    /// Many calls, with one test of the state. The library's rows of nine and of three words are
    /// `CallWords` and `Outcome`.
    pub fn calls(&mut self, calls: &[CallWords], outcomes: &mut [Outcome]) -> Done {
        unsafe {
            destination_calls(
                self.head.as_mut_ptr(),
                self.head.len(),
                self.subs.as_mut_ptr(),
                self.subs.len(),
                self.rows.as_mut_ptr(),
                self.rows.len(),
                self.events.as_mut_ptr(),
                self.events.len(),
                calls.as_ptr(),
                calls.len(),
                outcomes.as_mut_ptr(),
                outcomes.len(),
            )
        }
    }

    fn uncoded(&mut self, call: Uncoded) -> Outcome {
        unsafe {
            call(
                self.head.as_mut_ptr(),
                self.head.len(),
                self.subs.as_mut_ptr(),
                self.subs.len(),
                self.rows.as_mut_ptr(),
                self.rows.len(),
                self.events.as_mut_ptr(),
                self.events.len(),
            )
        }
    }

    pub fn add_discarded(&mut self) -> Outcome {
        self.uncoded(destination_add_discarded)
    }

    pub fn expired_before_storing(&mut self) -> Outcome {
        self.uncoded(destination_expired_before_storing)
    }

    // -- queries --------------------------------------------------------------------

    fn ask(&self, query: Ask) -> Asked {
        let (h, s, r) = (&self.head, &self.subs, &self.rows);
        unsafe { query(h.as_ptr(), h.len(), s.as_ptr(), s.len(), r.as_ptr(), r.len()) }
    }

    pub fn is_queue(&self) -> Asked {
        self.ask(destination_is_queue)
    }

    pub fn has_consumers(&self) -> Asked {
        self.ask(destination_has_consumers)
    }

    pub fn has_expiring(&self) -> Asked {
        self.ask(destination_has_expiring)
    }

    pub fn message_count(&self) -> Asked {
        self.ask(destination_message_count)
    }

    pub fn bytes_held(&self) -> Asked {
        self.ask(destination_bytes_held)
    }

    pub fn seq_at(&self, index: u64) -> Asked {
        let (h, s, r) = (&self.head, &self.subs, &self.rows);
        unsafe {
            destination_seq_at(
                h.as_ptr(),
                h.len(),
                s.as_ptr(),
                s.len(),
                r.as_ptr(),
                r.len(),
                index,
            )
        }
    }

    pub fn idle_for(&self, clock: u64, secs: u64) -> Asked {
        let (h, s, r) = (&self.head, &self.subs, &self.rows);
        unsafe {
            destination_idle_for(
                h.as_ptr(),
                h.len(),
                s.as_ptr(),
                s.len(),
                r.as_ptr(),
                r.len(),
                clock,
                secs,
            )
        }
    }

    pub fn counters(&self) -> Counters {
        let (h, s, r) = (&self.head, &self.subs, &self.rows);
        unsafe { destination_counters(h.as_ptr(), h.len(), s.as_ptr(), s.len(), r.as_ptr(), r.len()) }
    }

    pub fn page(&self, lines: &mut [Line], offset: u64, limit: u64) -> Paged {
        let (h, s, r) = (&self.head, &self.subs, &self.rows);
        unsafe {
            destination_page(
                h.as_ptr(),
                h.len(),
                s.as_ptr(),
                s.len(),
                r.as_ptr(),
                r.len(),
                lines.as_mut_ptr(),
                lines.len(),
                offset,
                limit,
            )
        }
    }

    pub fn outlook(&self, lines: &mut [Line], span: Span) -> Outlooked {
        let (h, s, r) = (&self.head, &self.subs, &self.rows);
        unsafe {
            destination_outlook(
                h.as_ptr(),
                h.len(),
                s.as_ptr(),
                s.len(),
                r.as_ptr(),
                r.len(),
                lines.as_mut_ptr(),
                lines.len(),
                span,
            )
        }
    }

    /// What the buffers hold, or nothing where a count is above its table or an audit's start is
    /// not one of the layout.
    pub fn whole(&self) -> Option<Whole> {
        let h = &self.head;
        let queue = h[0] == 0;
        let mut rest = &self.rows[..];
        let mut subs = Vec::new();
        for words in self.subs.get(..h[12] as usize)? {
            let flying = cut(&mut rest, words[14])?;
            let held = cut(&mut rest, words[15])?;
            subs.push(sub(words, flying, held, queue));
        }
        let mut reserved: Vec<(Id, Vec<EntryNumbers>)> = Vec::new();
        for row in cut(&mut rest, h[15])? {
            let owner = [row[6], row[7], row[8]];
            match reserved.iter_mut().find(|(id, _)| *id == owner) {
                Some((_, list)) => list.push(entry(row)),
                None => reserved.push((owner, vec![entry(row)])),
            }
        }
        let mut whole = Whole {
            queue,
            topic_limit: h[1],
            call_limit: h[2],
            calls_used: h[3],
            allowance: h[ALLOWANCE_AT],
            share: h[SHARE_AT],
            idle: (h[5] != 0).then_some(h[6]),
            stats: h[7..12].try_into().expect("five counters"),
            turn: h[4],
            waiting: entries(cut(&mut rest, h[16])?),
            subs,
            reserved,
            producers: self.producers()?,
            audits: self.audits()?,
        };
        whole.arrange();
        Some(whole)
    }

    fn producers(&self) -> Option<Vec<Id>> {
        let table = &self.head[PRODUCERS_AT..AUDITS_AT];
        let used = (self.head[13] as usize).checked_mul(3)?;
        Some(table.get(..used)?.chunks(3).map(id).collect())
    }

    fn audits(&self) -> Option<Vec<(Id, Vec<i64>)>> {
        let table = &self.head[AUDITS_AT..ALLOWANCE_AT];
        let used = (self.head[14] as usize).checked_mul(AUDIT)?;
        table.get(..used)?.chunks(AUDIT).map(audit).collect()
    }
}

/// The first rows of what is left.
fn cut<'a>(rest: &mut &'a [Row], count: u64) -> Option<&'a [Row]> {
    let count = usize::try_from(count).ok().filter(|n| *n <= rest.len())?;
    let (these, after) = rest.split_at(count);
    *rest = after;
    Some(these)
}

fn id(words: &[u64]) -> Id {
    [words[0], words[1], words[2]]
}

fn entry(row: &Row) -> EntryNumbers {
    EntryNumbers {
        sequence: row[0],
        expiration: row[1] as i64,
        persistent: row[2] != 0,
        connection: row[3],
        match_word: row[4],
        redelivery: row[5] as i32,
        size: row[SIZE_AT],
    }
}

fn entries(rows: &[Row]) -> Vec<EntryNumbers> {
    rows.iter().map(entry).collect()
}

fn sub(words: &SubRow, flying: &[Row], held: &[Row], queue: bool) -> SubNumbers {
    let (tpending, snapshot) = if queue {
        (Vec::new(), entries(held))
    } else {
        (entries(held), Vec::new())
    };
    SubNumbers {
        id: id(words),
        prefetch: words[3],
        selector: words[4],
        no_local: words[5] != 0,
        browser: words[6] != 0,
        finished: words[7] != 0,
        freed: words[13],
        next: words[8],
        cursor: words[9],
        pull: (words[10] != 0).then_some(words[11]),
        generation: words[12],
        sent: words[8].wrapping_sub(1),
        inflight: flying
            .iter()
            .map(|row| InflightNumbers {
                dseq: row[6],
                freed: row[7] != 0,
                tx: row[8] != 0,
                entry: entry(row),
            })
            .collect(),
        tpending,
        snapshot,
    }
}

/// The numbers of an audit, oldest first.
fn audit(words: &[u64]) -> Option<(Id, Vec<i64>)> {
    let (start, count) = (words[3] as usize, words[4] as usize);
    let window = &words[5..];
    let full = count == WINDOW && start < WINDOW;
    if !full && !(count < WINDOW && start == 0) {
        return None;
    }
    let (after, before) = (&window[start..], &window[..start]);
    let numbers = after.iter().chain(before).take(count).map(|w| *w as i64);
    Some((id(words), numbers.collect()))
}

/// An event of the broker in the library's words.
pub fn event_words(event: &Event) -> EventRow {
    match *event {
        Event::Dead {
            sequence,
            redelivery,
            cause,
        } => [1, sequence, i64::from(redelivery) as u64, u64::from(cause), 0, 0],
        Event::Message {
            id,
            sequence,
            redelivery,
        } => [2, id[0], id[1], id[2], sequence, i64::from(redelivery) as u64],
        Event::Null { id } => [3, id[0], id[1], id[2], 0, 0],
    }
}
