//! The whole state in one line, every list in a fixed order.

use std::fmt::{self, Write};

use super::engine::Opened;
use super::held::Held;
use super::host::{EntryNumbers, Id};
use super::whole::{SubNumbers, Whole};
use crate::broker::destination::probe;

/// How much of the audits is written.
#[derive(Clone, Copy, PartialEq)]
pub enum Audits {
    /// How many numbers, a sum over them in order, the first and the last.
    Summed,
    /// Also all numbers in order.
    Listed,
}

/// One line, `state ...`. Stops the program when what the port leaves out does not follow
/// from what it keeps.
pub fn line(opened: &Opened, audits: Audits) -> String {
    if let Err(what) = probe::check_derived(&opened.dest) {
        panic!("{what}");
    }
    let whole = Whole::of(opened);
    Held::of(opened, &whole);
    line_of(&whole, audits)
}

pub fn line_of(whole: &Whole, audits: Audits) -> String {
    let mut text = String::new();
    write_state(&mut text, whole, audits).expect("writing to a text succeeds");
    text.push('\n');
    text
}

fn write_state(out: &mut String, whole: &Whole, audits: Audits) -> fmt::Result {
    let kind = if whole.queue { "queue" } else { "topic" };
    let (used, limit) = (whole.calls_used, whole.call_limit);
    write!(out, "state calls={used}/{limit} idle={}", or_dash(whole.idle))?;
    let s = whole.stats;
    write!(
        out,
        " {kind} limit={} allowance={} share={}",
        whole.topic_limit, whole.allowance, whole.share
    )?;
    write!(out, " stats={},{},{},{},{}", s[0], s[1], s[2], s[3], s[4])?;
    write!(out, " bytes={} turn={}", whole.bytes(), whole.turn)?;
    write!(out, " waiting={}", entries(&whole.waiting))?;
    for sub in &whole.subs {
        write_sub(out, sub)?;
    }
    for (id, list) in &whole.reserved {
        write!(out, " reserved({} {})", numbers(*id), entries(list))?;
    }
    for id in &whole.producers {
        write!(out, " producer({})", numbers(*id))?;
    }
    for (id, list) in &whole.audits {
        write_audit(out, *id, list, audits)?;
    }
    Ok(())
}

fn write_sub(out: &mut String, sub: &SubNumbers) -> fmt::Result {
    let (no_local, browser) = (u8::from(sub.no_local), u8::from(sub.browser));
    write!(
        out,
        " sub({} prefetch={} sel={}",
        numbers(sub.id),
        sub.prefetch,
        sub.selector
    )?;
    write!(
        out,
        " nolocal={no_local} browser={browser} finished={}",
        u8::from(sub.finished)
    )?;
    write!(
        out,
        " freed={} next={} cursor={}",
        sub.freed, sub.next, sub.cursor
    )?;
    write!(out, " pull={} gen={}", or_dash(sub.pull), sub.generation)?;
    write!(out, " sent={} inflight=[", sub.sent)?;
    for (k, i) in sub.inflight.iter().enumerate() {
        let space = if k == 0 { "" } else { " " };
        let freed = if i.freed { "f" } else { "" };
        let tx = if i.tx { "t" } else { "" };
        write!(out, "{space}{}{freed}{tx}={}", i.dseq, entry(&i.entry))?;
    }
    write!(
        out,
        "] tpending={} snapshot={})",
        entries(&sub.tpending),
        entries(&sub.snapshot)
    )
}

fn write_audit(out: &mut String, id: Id, list: &[i64], audits: Audits) -> fmt::Result {
    let sum = list
        .iter()
        .fold(0u64, |sum, n| sum.wrapping_mul(1_000_003).wrapping_add(*n as u64));
    write!(out, " audit({} n={} sum={sum:x}", numbers(id), list.len())?;
    if let (Some(first), Some(last)) = (list.first(), list.last()) {
        write!(out, " first={first} last={last}")?;
    }
    if audits == Audits::Listed {
        let all: Vec<String> = list.iter().map(i64::to_string).collect();
        write!(out, " numbers=[{}]", all.join(" "))?;
    }
    write!(out, ")")
}

fn numbers(id: Id) -> String {
    format!("{},{},{}", id[0], id[1] as i64, id[2] as i64)
}

/// sequence:expiration:persistent:connection:match word in hexadecimal:redelivery:size
fn entry(n: &EntryNumbers) -> String {
    let persistent = u8::from(n.persistent);
    format!(
        "{}:{}:{persistent}:{}:{:x}:{}:{}",
        n.sequence, n.expiration, n.connection, n.match_word, n.redelivery, n.size
    )
}

fn entries(list: &[EntryNumbers]) -> String {
    let all: Vec<String> = list.iter().map(entry).collect();
    format!("[{}]", all.join(" "))
}

fn or_dash(number: Option<u64>) -> String {
    number.map_or_else(|| "-".to_string(), |n| n.to_string())
}
