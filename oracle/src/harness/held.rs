//! Bytes held (document 02 §3): the broker's figure, and a second reading from what stands in its places, each entry once. The
//! broker adds 256 bytes to each body, so it has no size below; there the second reading decides.

use super::engine::Opened;
use super::whole::Whole;
use crate::broker::destination::probe;
use crate::broker::entry::ENTRY_OVERHEAD;

#[derive(Clone, Copy, Debug, PartialEq)]
pub struct Held {
    /// What the broker counts (`DestUsage`).
    figure: u64,
    /// The sizes that the calls gave.
    read: u64,
    /// Entries held, and those of them with a size below 256.
    pub entries: usize,
    pub small: usize,
}

impl Held {
    /// Stops the program where the broker's figure is not the second reading, each size below 256 read as 256.
    pub fn of(opened: &Opened, whole: &Whole) -> Held {
        let held = whole.held();
        let figure = probe::usage(&opened.dest);
        let charged: u64 = held.values().map(|e| e.charged()).sum();
        assert_eq!(figure, charged, "the broker's figure is of what it holds");
        Held {
            figure,
            read: whole.bytes(),
            entries: held.len(),
            small: held.values().filter(|e| e.size < ENTRY_OVERHEAD).count(),
        }
    }

    /// `h BYTES`
    pub fn line(opened: &Opened) -> String {
        format!("h {}\n", Held::of(opened, &Whole::of(opened)).bytes())
    }

    /// The broker's figure where it has all sizes, else the second reading.
    pub fn bytes(&self) -> u64 {
        if self.small == 0 {
            self.figure
        } else {
            self.read
        }
    }
}
