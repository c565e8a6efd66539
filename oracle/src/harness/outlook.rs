//! What waits when the clock is only known within limits (document 02 §13): a second reading from the broker's waiting list, by
//! the broker's own `expired`, beside the library's. The broker has no such query.

use super::arguments::CLOCK_MAX;
use super::callfile::{code, Call};
use super::engine::{refusal, Opened};
use super::library::{CallWords, Lent, Line, Outlooked, Span, OUTLOOK_LINES};
use crate::broker::destination::probe;
use crate::broker::entry::Entry;

/// A line that nothing writes.
const FREE: Line = Line {
    sequence: u64::MAX,
    expiration: -1,
    redelivery: -1,
};

/// How often it was asked, and what was met.
#[derive(Clone, Copy, Default)]
pub struct Outlooks {
    pub asked: u64,
    /// With entries that have surely expired, that have perhaps, and with both times a list of several lines.
    pub sure: u64,
    pub perhaps: u64,
    pub listed: u64,
    /// Sweeps in between, tried on a copy.
    pub sweeps: u64,
}

/// What differs, if anything does, for readings and times around this clock.
pub fn differs(opened: &Opened, lent: &Lent, clock: u64, met: &mut Outlooks) -> Option<&'static str> {
    for span in spans(clock.min(CLOCK_MAX)) {
        let (wanted, lines) = reading(opened, span);
        met.asked += 1;
        met.sure += u64::from(wanted.sure > 0);
        met.perhaps += u64::from(wanted.perhaps > 0);
        met.listed += u64::from(lines.len() > 1);
        if asked(lent, span, OUTLOOK_LINES + 1) != (wanted, padded(lines)) {
            return Some("outlook");
        }
        if wanted.refusal == 0 && !sweep_within(opened, lent, span, met) {
            return Some("a sweep between the readings");
        }
    }
    let turned = Span::new(1, 0, (0, 0));
    let short = asked(lent, turned, OUTLOOK_LINES - 1).0;
    (short != Outlooked::refused(1)).then_some("outlook into a short list")
}

/// Readings that lie together and apart, in range and not; times around them, all, and none.
fn spans(clock: u64) -> [Span; 7] {
    let back = |by: u64| clock.saturating_sub(by);
    let on = |by: u64| (clock + by).min(CLOCK_MAX);
    let around = (back(20) as i64, on(20) as i64);
    let all = (i64::MIN, i64::MAX);
    [
        Span::new(clock, clock, all),
        Span::new(back(10), on(10), around),
        Span::new(back(30), clock, (1, clock as i64)),
        Span::new(0, CLOCK_MAX, (around.1, around.0)),
        Span::new(on(3), back(3), all),
        Span::new(CLOCK_MAX + 1, clock, all),
        Span::new(clock, CLOCK_MAX + 1, all),
    ]
}

fn asked(lent: &Lent, span: Span, room: usize) -> (Outlooked, Vec<Line>) {
    let mut lines = vec![FREE; room];
    (lent.outlook(&mut lines, span), lines)
}

fn padded(mut lines: Vec<Line>) -> Vec<Line> {
    lines.resize(OUTLOOK_LINES + 1, FREE);
    lines
}

/// The broker's waiting entries; a topic has none.
fn waiting(opened: &Opened) -> Vec<Entry> {
    probe::view(&opened.dest).waiting
}

/// The answer and the lines by the paper.
fn reading(opened: &Opened, span: Span) -> (Outlooked, Vec<Line>) {
    if span.earlier.max(span.later) > CLOCK_MAX {
        return (Outlooked::refused(3), Vec::new());
    }
    if span.earlier > span.later {
        return (Outlooked::refused(17), Vec::new());
    }
    let (early, late) = (opened.reduced(span.earlier), opened.reduced(span.later));
    let mut entries = waiting(opened);
    entries.sort_by_key(|e| (e.msg.expiration, e.seq));
    let count = |test: &dyn Fn(&Entry) -> bool| entries.iter().filter(|e| test(e)).count() as u64;
    let next = entries.iter().find(|e| e.msg.expiration > 0 && !e.expired(late));
    let lines: Vec<Line> = entries
        .iter()
        .filter(|e| e.msg.expiration > 0 && (span.from..=span.to).contains(&e.msg.expiration))
        .map(|e| Line {
            sequence: e.seq,
            expiration: e.msg.expiration,
            redelivery: e.redelivery,
        })
        .collect();
    let answer = Outlooked {
        refusal: 0,
        sure: count(&|e| e.expired(early)),
        perhaps: count(&|e| e.expired(late) && !e.expired(early)),
        alive: count(&|e| !e.expired(late)),
        next: next.map_or(0, |e| e.seq),
        count: lines.len(),
    };
    (answer, lines)
}

/// Whether a sweep at a clock between the readings, on a copy, removes of what waits at least the sure ones and at most sure and perhaps.
fn sweep_within(opened: &Opened, lent: &Lent, span: Span, met: &mut Outlooks) -> bool {
    let clock = span.earlier + (span.later - span.earlier) / 2;
    let mut copy = lent.clone();
    let outcome = copy.call(CallWords::from(&Call::new(code::SWEEP, &[clock, 512])));
    if outcome.refusal != u64::from(refusal::NONE) {
        return outcome.refusal == u64::from(refusal::CALL_LIMIT);
    }
    met.sweeps += 1;
    let left = copy.whole().expect("a sweep leaves a sound state").waiting;
    waiting(opened).iter().all(|e| {
        let gone = left.iter().all(|l| l.sequence != e.seq);
        let (sure, later) = (
            e.expired(opened.reduced(span.earlier)),
            e.expired(opened.reduced(span.later)),
        );
        (gone || !sure) && (!gone || later)
    })
}
