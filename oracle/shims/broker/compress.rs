//! Shim: body compression. Messages here have no body.

use crate::openwire::model::Message;

pub enum Outcome {
    Compressed,
    Discarded,
    Skipped,
}

pub fn maybe_compress(_msg: &mut Message, _threshold: u64, _min_saving_pct: u64) -> Outcome {
    Outcome::Skipped
}
