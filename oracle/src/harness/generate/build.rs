//! Arguments of one random call, most of them taken from the state.

use super::super::arguments::{self, ALLOWANCE_MAX, SEQUENCE_MAX, SIZE_MAX};
use super::super::callfile::{ack_bit, code, join_flag, Call};
use super::super::host::{self, Id, NO_SELECTOR};
use super::super::random::Random;
use super::Maker;
use crate::broker::destination::probe::{SubView, View};

/// How many producers the duplicate tests name.
pub const AUDITED: usize = 10;

/// A call with this code; before an open there is no view.
pub fn call(maker: &mut Maker, code: u64, view: Option<&View>) -> Call {
    let clock = maker.clock;
    match code {
        code::OPEN => open(maker),
        code::ENQUEUE => enqueue(maker, view),
        code::JOIN => join(maker, view),
        code::LEAVE => {
            let id = present(maker, view);
            let last = last_delivered(maker, sub_of(view, id));
            with_id(code, id, &[last as u64, clock])
        }
        code::ACK => ack(maker, view),
        code::PULL => {
            let id = puller(maker, view);
            let timeout = match maker.random.below(8) {
                0 | 1 => -1,
                2 | 3 => 0,
                4 => maker.random.word() as i64,
                _ => 5,
            };
            with_id(code, id, &[timeout as u64, clock])
        }
        code::TIMEOUT => {
            let id = puller(maker, view);
            let waiting = sub_of(view, id).and_then(|s| s.pull).unwrap_or(1);
            let generation = match maker.random.below(8) {
                0 => waiting.wrapping_sub(1),
                1 => waiting + 1,
                2 => maker.random.word(),
                _ => waiting,
            };
            with_id(code, id, &[generation])
        }
        code::PREFETCH => {
            let id = present(maker, view);
            let prefetch = prefetch(maker);
            with_id(code, id, &[prefetch as u64, clock])
        }
        code::UNMARK => {
            let id = reserved(maker, view);
            with_id(code, id, &[])
        }
        code::RELEASE => {
            let id = match maker.calls.last() {
                Some(first) if !maker.profile.halves && first.code == code::UNMARK => {
                    [first.args[0], first.args[1], first.args[2]]
                }
                _ => reserved(maker, view),
            };
            with_id(code, id, &[clock])
        }
        code::SWEEP => {
            let maximum = maker.random.pick(&[0, 1, 1, 2, 3, 5, 10, 511, 512]);
            Call::new(code, &[clock, maximum])
        }
        code::CLEAR => Call::new(code, &[]),
        code::ADD_PRODUCER => {
            let id = producer(maker.random.below(40));
            with_id(code, id, &[])
        }
        code::REMOVE_PRODUCER => {
            let id = known_producer(maker, view);
            with_id(code, id, &[clock])
        }
        code::DUPLICATE => duplicate(maker),
        code::RELEASE_AUDITS => {
            let id = known_producer(maker, view);
            Call::new(code, &[id[0]])
        }
        other => Call::new(other, &[]),
    }
}

fn with_id(code: u64, id: Id, rest: &[u64]) -> Call {
    Call::new(code, &[&id[..], rest].concat())
}

fn open(maker: &mut Maker) -> Call {
    let p = maker.profile;
    maker.small_sizes = maker.sizes.chance(1, 2);
    let kind = maker.random.pick(p.kinds);
    let topic_limit = maker.random.pick(p.topic_limits);
    let call_limit = maker.random.pick(p.call_limits);
    let allowance = match p.allowances {
        [only] => *only,
        some => maker.random.pick(some),
    };
    let share = match p.shares {
        [only] => *only,
        some => maker.random.pick(some),
    };
    // Mostly the clock starts near the allowance.
    if allowance > 0 && maker.random.chance(4, 5) {
        maker.clock = (allowance + maker.random.below(120)).saturating_sub(60);
    }
    Call::new(
        code::OPEN,
        &[kind, topic_limit, call_limit, maker.clock, allowance, share],
    )
}

// -- identifiers ----------------------------------------------------------------

/// Consumer number k of the pool; some share a connection, one has connection 0, and some
/// have numbers at the ends of their ranges.
fn consumer(k: u64) -> Id {
    match k {
        0 => [0, 0, 0],
        5 => [u64::MAX, i64::MIN as u64, -1i64 as u64],
        11 => [1, i64::MAX as u64, i64::MIN as u64],
        _ => [1 + k % 3, (k / 6).wrapping_sub(1), k],
    }
}

fn producer(k: u64) -> Id {
    match k {
        0 => [0, 0, 0],
        3 => [u64::MAX, -1i64 as u64, i64::MIN as u64],
        _ => [1 + k % 3, k / 6, k],
    }
}

fn any_consumer(maker: &mut Maker) -> Id {
    consumer(maker.random.below(maker.profile.consumers))
}

fn sub_of(view: Option<&View>, id: Id) -> Option<&SubView> {
    view?.subs.iter().find(|s| host::consumer_number(&s.id) == id)
}

fn pick_sub<'a>(
    random: &mut Random,
    view: Option<&'a View>,
    like: impl Fn(&SubView) -> bool,
) -> Option<&'a SubView> {
    let liked: Vec<&SubView> = view?.subs.iter().filter(|s| like(s)).collect();
    if liked.is_empty() {
        return None;
    }
    Some(random.pick(&liked))
}

/// Mostly a consumer that is there.
fn present(maker: &mut Maker, view: Option<&View>) -> Id {
    if maker.random.chance(1, 10) {
        return any_consumer(maker);
    }
    match pick_sub(&mut maker.random, view, |_| true) {
        Some(sub) => host::consumer_number(&sub.id),
        None => any_consumer(maker),
    }
}

/// Mostly a consumer that pulls.
fn puller(maker: &mut Maker, view: Option<&View>) -> Id {
    if maker.random.chance(1, 5) {
        return present(maker, view);
    }
    match pick_sub(&mut maker.random, view, |s| s.prefetch == 0) {
        Some(sub) => host::consumer_number(&sub.id),
        None => present(maker, view),
    }
}

/// Mostly a consumer with reserved entries.
fn reserved(maker: &mut Maker, view: Option<&View>) -> Id {
    let lists = view.map_or(&[][..], |v| &v.reserved[..]);
    if lists.is_empty() || maker.random.chance(1, 5) {
        return present(maker, view);
    }
    let at = maker.random.below(lists.len() as u64) as usize;
    host::consumer_number(&lists[at].0)
}

/// Mostly a producer that is registered or audited.
fn known_producer(maker: &mut Maker, view: Option<&View>) -> Id {
    let any = producer(maker.random.below(40));
    let Some(view) = view else {
        return any;
    };
    let mut known: Vec<Id> = view.producers.iter().map(host::producer_number).collect();
    known.extend(view.audits.iter().map(|(id, _)| host::producer_number(id)));
    if known.is_empty() || maker.random.chance(1, 6) {
        return any;
    }
    maker.random.pick(&known)
}

// -- entries ----------------------------------------------------------------------

fn enqueue(maker: &mut Maker, view: Option<&View>) -> Call {
    let sequence = sequence(maker, view);
    let expiration = expiration(maker);
    let persistent = maker.random.below(2);
    let connection = match maker.random.below(12) {
        0 => u64::MAX,
        1 if maker.profile.wild => maker.random.word(),
        k => k % 4,
    };
    let match_word = match maker.random.below(6) {
        0 => 0,
        1 => u64::MAX,
        _ => maker.random.word(),
    };
    let redelivery = match maker.random.below(12) {
        0 => maker.random.between(-3, 3),
        1 => i64::from(i32::MAX) - maker.random.between(0, 2),
        2 if maker.profile.wild => i64::from(maker.random.word() as i32),
        _ => 0,
    };
    let args = [
        sequence,
        expiration as u64,
        persistent,
        connection,
        match_word,
        redelivery as u64,
        maker.clock,
        size(maker),
    ];
    Call::new(code::ENQUEUE, &args)
}

/// A size; after half of the opens none is below 256, as in the broker.
fn size(maker: &mut Maker) -> u64 {
    let least = if maker.small_sizes { 0 } else { 256 };
    let size = match maker.sizes.below(10) {
        0 => 0,
        1 => SIZE_MAX - maker.sizes.below(2),
        2 => maker.sizes.between(254, 258) as u64,
        3 | 4 => maker.sizes.below(300),
        5 | 6 => 256 + maker.sizes.below(3000),
        _ => maker.sizes.sized(32),
    };
    size.max(least)
}

fn sequence(maker: &mut Maker, view: Option<&View>) -> u64 {
    match maker.random.below(30) {
        // One that may be held.
        0 => {
            let sub = pick_sub(&mut maker.random, view, |_| true);
            held_sequence(maker, sub)
        }
        // A lower one than before.
        1 | 2 => 1 + maker.random.below(maker.next_sequence),
        3 if maker.profile.wild => SEQUENCE_MAX - maker.random.below(4),
        // A gap, which later lower ones fill.
        4 => {
            maker.next_sequence += 1 + maker.random.below(5);
            maker.next_sequence
        }
        _ => {
            maker.next_sequence += 1;
            maker.next_sequence
        }
    }
}

/// The sequence number of an entry that the consumer holds, if it holds any.
fn held_sequence(maker: &mut Maker, sub: Option<&SubView>) -> u64 {
    let mut held: Vec<u64> = Vec::new();
    if let Some(sub) = sub {
        held.extend(sub.inflight.iter().map(|i| i.entry.seq));
        held.extend(sub.tpending.iter().map(|e| e.seq));
        held.extend(sub.snapshot.iter().flatten().map(|e| e.seq));
    }
    if held.is_empty() {
        return 1 + maker.random.below(maker.next_sequence);
    }
    maker.random.pick(&held)
}

fn expiration(maker: &mut Maker) -> i64 {
    if !maker.random.chance(maker.profile.expiring, 10) {
        return 0;
    }
    let allowance = maker.engine.opened().map_or(0, |o| o.allowance) as i64;
    // By the clock, or so that it expires about now.
    let about_now = allowance > 0 && maker.random.chance(1, 2);
    let clock = maker.clock as i64 - if about_now { allowance } else { 0 };
    match maker.random.below(16) {
        0 => clock,
        1 => clock - maker.random.between(0, 3),
        2 => -maker.random.between(0, 9),
        3 if maker.profile.wild => maker.random.word() as i64,
        _ => clock + maker.random.between(1, 40),
    }
}

// -- consumers --------------------------------------------------------------------

fn prefetch(maker: &mut Maker) -> i64 {
    if maker.profile.wild && maker.random.chance(1, 20) {
        return maker.random.pick(&[i64::from(i32::MIN), i64::from(i32::MAX), -7]);
    }
    maker.random.pick(maker.profile.prefetches)
}

fn join(maker: &mut Maker, view: Option<&View>) -> Call {
    let mut id = any_consumer(maker);
    // Mostly one that is not there.
    for _ in 0..4 {
        if sub_of(view, id).is_none() || maker.random.chance(1, 10) {
            break;
        }
        id = any_consumer(maker);
    }
    let p = maker.profile;
    let prefetch = prefetch(maker);
    let selector = if maker.random.chance(p.selectors, 10) {
        maker.random.pick(&[0, 1, 2, 31, 32, 62, 63])
    } else {
        NO_SELECTOR
    };
    let mut flags = 0;
    if maker.random.chance(p.no_locals, 10) {
        flags |= join_flag::NO_LOCAL;
    }
    if maker.random.chance(p.browsers, 10) {
        flags |= join_flag::BROWSER;
    }
    with_id(code::JOIN, id, &[prefetch as u64, selector, flags, maker.clock])
}

fn last_delivered(maker: &mut Maker, sub: Option<&SubView>) -> i64 {
    match maker.random.below(8) {
        0 | 1 => -1,
        2 => 0,
        3 => maker.random.word() as i64,
        _ => held_sequence(maker, sub) as i64,
    }
}

// -- acknowledgements ---------------------------------------------------------------

fn ack(maker: &mut Maker, view: Option<&View>) -> Call {
    let holder =
        pick_sub(&mut maker.random, view, |s| !s.inflight.is_empty()).map(|s| host::consumer_number(&s.id));
    let id = match maker.random.below(20) {
        0 | 1 => reserved(maker, view),
        2 => present(maker, view),
        _ => match holder {
            Some(id) => id,
            None => reserved(maker, view),
        },
    };
    let known = ackable(view, id);
    let ack_type = match maker.random.below(40) {
        0 => maker.random.below(256),
        1 => 7,
        _ => maker.random.pick(&[0, 0, 1, 2, 2, 2, 3, 4, 4, 5, 6]),
    };
    let mut word = ack_type;
    if maker.random.chance(maker.profile.transacted, 10) {
        word |= ack_bit::TRANSACTED;
    }
    if maker.random.chance(3, 10) {
        word |= ack_bit::CAUSE;
    }
    let mut first = 0;
    if maker.random.chance(1, 2) {
        word |= ack_bit::FIRST;
        first = ack_number(maker, &known);
    }
    let mut last = 0;
    if maker.random.chance(19, 20) {
        word |= ack_bit::LAST;
        last = ack_number(maker, &known);
    }
    with_id(code::ACK, id, &[word, first, last, maker.clock])
}

/// Sequence numbers in flight to the consumer or reserved for it.
fn ackable(view: Option<&View>, id: Id) -> Vec<u64> {
    let Some(view) = view else {
        return Vec::new();
    };
    let mut known = Vec::new();
    if let Some(sub) = sub_of(Some(view), id) {
        known.extend(sub.inflight.iter().map(|i| i.entry.seq));
    }
    for (owner, list) in &view.reserved {
        if host::consumer_number(owner) == id {
            known.extend(list.iter().map(|e| e.seq));
        }
    }
    known
}

fn ack_number(maker: &mut Maker, known: &[u64]) -> u64 {
    match maker.random.below(20) {
        0 => -1i64 as u64,
        1 => maker.random.below(maker.next_sequence + 2),
        2 => maker.random.word(),
        _ if known.is_empty() => maker.random.below(maker.next_sequence + 1),
        _ => maker.random.pick(known),
    }
}

// -- audits -------------------------------------------------------------------------

/// Mostly rising numbers of two producers, with resends from around the window's end.
fn duplicate(maker: &mut Maker) -> Call {
    let k = match maker.random.below(20) {
        0..=1 => maker.random.below(AUDITED as u64),
        2..=5 => 2,
        _ => 1,
    };
    let id = producer(k);
    let next = &mut maker.audit_numbers[k as usize];
    let number = match maker.random.below(10) {
        0 => *next - maker.random.between(0, 10),
        1 => *next - maker.random.between(1018, 1030),
        2 => *next - maker.random.between(0, 1100),
        _ => {
            *next += 1;
            *next
        }
    };
    let number = if maker.profile.wild && maker.random.chance(1, 100) {
        maker.random.pick(&[i64::MIN, i64::MAX, -1, 0])
    } else {
        number
    };
    with_id(code::DUPLICATE, id, &[number as u64])
}

// -- words out of range ---------------------------------------------------------------

/// Spoils the code or a word: out of range, unused and not 0, or just another number.
pub fn spoil(maker: &mut Maker, call: &mut Call) {
    let random = &mut maker.random;
    if random.chance(1, 6) {
        call.code = random.pick(&[16, 17, 255, 256, 1 << 32, 1 << 63, u64::MAX]);
        return;
    }
    // A release as it was before document 02 §10: its identifier and its clock.
    if call.code == code::UNMARK && random.chance(1, 3) {
        call.args[3] = maker.clock.max(1);
        return;
    }
    let used = arguments::words_used(call.code).unwrap_or(8);
    let place = if used < 8 && random.chance(1, 3) {
        used + random.below((8 - used) as u64) as usize
    } else {
        random.below(8) as usize
    };
    call.args[place] = random.pick(&[
        0,
        1,
        2,
        3,
        4,
        63,
        64,
        65,
        511,
        512,
        513,
        2047,
        2048,
        4095,
        4096,
        65_536,
        (1 << 31) - 1,
        1 << 31,
        SIZE_MAX,
        SIZE_MAX + 1,
        ALLOWANCE_MAX,
        ALLOWANCE_MAX + 1,
        1 << 40,
        (1 << 40) + 1,
        1 << 62,
        (1 << 62) + 1,
        SEQUENCE_MAX,
        1 << 63,
        i64::from(i32::MIN) as u64,
        i64::from(i32::MIN) as u64 - 1,
        u64::MAX,
    ]);
}
