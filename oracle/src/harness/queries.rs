//! What the broker's queries answer, in lines.
//!
//! `q HAS_CONSUMERS HAS_EXPIRING MESSAGE_COUNT IDLE BYTES` where IDLE is `idle_for` 0 seconds, BYTES the bytes held;
//! `s INDEX SEQUENCE` for `seq_at`, `-` where there is none;
//! `p OFFSET LIMIT TOTAL` for `page`, then `l SEQUENCE EXPIRATION REDELIVERY` for each entry.

use std::fmt::{self, Write};

use super::engine::Opened;
use super::held::Held;
use super::whole::Whole;
use crate::broker::destination::{probe, Dest};

pub fn lines(opened: &Opened) -> String {
    let mut text = String::new();
    let bytes = Held::of(opened, &Whole::of(opened)).bytes();
    write_queries(&mut text, &opened.dest, bytes).expect("writing to a text succeeds");
    text
}

fn write_queries(out: &mut String, dest: &Dest, bytes: u64) -> fmt::Result {
    let consumers = u8::from(dest.has_consumers());
    let expiring = u8::from(dest.has_expiring());
    let idle = u8::from(dest.idle_for(0));
    writeln!(
        out,
        "q {consumers} {expiring} {} {idle} {bytes}",
        dest.message_count()
    )?;
    let (total, _) = dest.page(0, 0);
    for index in [0, 1, total / 2, total / 2 + 1, total.saturating_sub(1), total] {
        match probe::seq_at(dest, index) {
            Some(sequence) => writeln!(out, "s {index} {sequence}")?,
            None => writeln!(out, "s {index} -")?,
        }
    }
    for (offset, limit) in [
        (0, 50),
        (0, 60),
        (1, 2),
        (total / 2, 50),
        (total, 50),
        (total + 1, 1),
    ] {
        let (total, page) = dest.page(offset, limit);
        writeln!(out, "p {offset} {limit} {total}")?;
        for e in page {
            writeln!(out, "l {} {} {}", e.seq, e.msg.expiration, e.redelivery)?;
        }
    }
    Ok(())
}
