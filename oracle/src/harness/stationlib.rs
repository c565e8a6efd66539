//! The proved station, linked as a static library: its lent buffers, and calls on them. include/station.h says what they do.

use super::callfile::{code, Call};
use super::library::{CallWords, Done, EventRow, Outcome, Row, SubRow};
use super::station::place_of;

pub const HEADS: usize = 66_776;
pub const SUBS: usize = 256;
pub const ROWS: usize = 4096;
pub const OWN: usize = 20;
pub const EVENTS: usize = 4872;

#[link(name = "station", kind = "static")]
extern "C" {
    fn station_start(
        heads: *const u64,
        heads_length: usize,
        subs: *const SubRow,
        subs_length: usize,
        rows: *const Row,
        rows_length: usize,
        own: *mut u64,
        own_length: usize,
        events: *const EventRow,
        events_length: usize,
    ) -> u64;

    fn station_call(
        heads: *mut u64,
        heads_length: usize,
        subs: *mut SubRow,
        subs_length: usize,
        rows: *mut Row,
        rows_length: usize,
        own: *mut u64,
        own_length: usize,
        events: *mut EventRow,
        events_length: usize,
        number: u64,
        call: CallWords,
    ) -> Outcome;

    fn station_calls(
        heads: *mut u64,
        heads_length: usize,
        subs: *mut SubRow,
        subs_length: usize,
        rows: *mut Row,
        rows_length: usize,
        own: *mut u64,
        own_length: usize,
        events: *mut EventRow,
        events_length: usize,
        words: *const CallWords,
        words_length: usize,
        outcomes: *mut Outcome,
        outcomes_length: usize,
    ) -> Done;
}

/// A station in lent buffers, and an event list.
pub struct LentStation {
    pub heads: Vec<u64>,
    pub subs: Vec<SubRow>,
    pub rows: Vec<Row>,
    pub own: Vec<u64>,
    pub events: Vec<EventRow>,
}

impl Default for LentStation {
    fn default() -> LentStation {
        LentStation::new()
    }
}

impl LentStation {
    pub fn new() -> LentStation {
        LentStation {
            heads: vec![0; HEADS],
            subs: vec![[0; 16]; SUBS],
            rows: vec![[0; 10]; ROWS],
            own: vec![0; OWN],
            events: vec![[0; 6]; EVENTS],
        }
    }

    fn start(&mut self) -> Outcome {
        // Each buffer is lent with its own length.
        let refusal = unsafe {
            station_start(
                self.heads.as_ptr(),
                self.heads.len(),
                self.subs.as_ptr(),
                self.subs.len(),
                self.rows.as_ptr(),
                self.rows.len(),
                self.own.as_mut_ptr(),
                self.own.len(),
                self.events.as_ptr(),
                self.events.len(),
            )
        };
        Outcome {
            refusal,
            answer: 0,
            events: 0,
        }
    }

    #[inline]
    pub fn call_at(&mut self, number: u64, call: CallWords) -> Outcome {
        // Each buffer is lent with its own length.
        unsafe {
            station_call(
                self.heads.as_mut_ptr(),
                self.heads.len(),
                self.subs.as_mut_ptr(),
                self.subs.len(),
                self.rows.as_mut_ptr(),
                self.rows.len(),
                self.own.as_mut_ptr(),
                self.own.len(),
                self.events.as_mut_ptr(),
                self.events.len(),
                number,
                call,
            )
        }
    }

    /// A call of a station's call file.
    pub fn call(&mut self, call: &Call) -> Outcome {
        let (number, plain) = place_of(call);
        if plain == code::START {
            return self.start();
        }
        self.call_at(number, CallWords { code: plain, words: call.args })
    }

    /// Many calls, each with its destination in its first word.
    pub fn calls(&mut self, calls: &[CallWords], outcomes: &mut [Outcome]) -> Done {
        // Each buffer is lent with its own length.
        unsafe {
            station_calls(
                self.heads.as_mut_ptr(),
                self.heads.len(),
                self.subs.as_mut_ptr(),
                self.subs.len(),
                self.rows.as_mut_ptr(),
                self.rows.len(),
                self.own.as_mut_ptr(),
                self.own.len(),
                self.events.as_mut_ptr(),
                self.events.len(),
                calls.as_ptr(),
                calls.len(),
                outcomes.as_mut_ptr(),
                outcomes.len(),
            )
        }
    }
}
