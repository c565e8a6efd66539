//! Child module of the destination: reads its private fields, and changes nothing but transaction marks, for a half
//! of a release that comes alone, and the surplus of a topic's lists in which something has expired.

use std::collections::{BTreeMap, BTreeSet, HashMap};
use std::sync::atomic::Ordering;
use std::sync::Arc;
use std::time::Instant;

use super::{Dest, Entry, State, Stats, Sub};
use crate::openwire::model::{ConsumerId, ProducerId};
use crate::selector::Selector;

// -- what refusals ask ------------------------------------------------------

pub fn stats(dest: &Dest) -> Stats {
    dest.state.lock().stats
}

pub fn idle_mark(dest: &Dest) -> Option<Instant> {
    dest.state.lock().idle_since
}

pub fn sub_count(dest: &Dest) -> usize {
    dest.state.lock().subs.len()
}

pub fn has_sub(dest: &Dest, id: &ConsumerId) -> bool {
    dest.state.lock().subs.iter().any(|s| &s.id == id)
}

pub fn producer_count(dest: &Dest) -> usize {
    dest.state.lock().producers.len()
}

pub fn has_producer(dest: &Dest, id: &ProducerId) -> bool {
    dest.state.lock().producers.contains_key(id)
}

pub fn audit_count(dest: &Dest) -> usize {
    dest.state.lock().audit.len()
}

pub fn has_audit(dest: &Dest, id: &ProducerId) -> bool {
    dest.state.lock().audit.contains_key(id)
}

/// Copies of entries, in all places.
pub fn rows_used(dest: &Dest) -> usize {
    let st = dest.state.lock();
    let reserved: usize = st.reserved.values().map(Vec::len).sum();
    st.pending.len() + reserved + st.subs.iter().map(sub_rows).sum::<usize>()
}

fn sub_rows(sub: &Sub) -> usize {
    sub.inflight.len() + sub.tpending.len() + sub.browser.as_ref().map_or(0, |b| b.len())
}

/// The copies that belong to producer connections: a queue's browsers' copies belong to none.
pub fn owned(dest: &Dest) -> Vec<Entry> {
    let st = dest.state.lock();
    let subs = st.subs.iter().filter(|s| !dest.is_queue() || s.browser.is_none());
    let held = subs.flat_map(|s| {
        let inflight = s.inflight.values().map(|i| &i.entry);
        inflight
            .chain(s.tpending.values())
            .chain(s.browser.iter().flatten())
    });
    st.pending
        .values()
        .chain(st.reserved.values().flatten())
        .chain(held)
        .cloned()
        .collect()
}

/// True when a copy with this sequence number stands in any place.
pub fn holds(dest: &Dest, seq: u64) -> bool {
    let st = dest.state.lock();
    st.pending.contains_key(&seq)
        || st.reserved.values().flatten().any(|e| e.seq == seq)
        || st.subs.iter().any(|s| sub_holds(s, seq))
}

fn sub_holds(sub: &Sub, seq: u64) -> bool {
    sub.inflight.values().any(|i| i.entry.seq == seq)
        || sub.tpending.contains_key(&seq)
        || sub.browser.iter().flatten().any(|e| e.seq == seq)
}

/// Subscriptions that accept the entry.
pub fn accepting(dest: &Dest, entry: &Entry) -> usize {
    let st = dest.state.lock();
    st.subs.iter().filter(|s| s.accepts(entry)).count()
}

/// Entries a new browser's snapshot would hold.
pub fn snapshot_rows(dest: &Dest, selector: Option<&Selector>, now_ms: i64) -> usize {
    let st = dest.state.lock();
    st.pending
        .values()
        .filter(|e| !e.expired(now_ms) && selector.is_none_or(|s| s.matches(*e)))
        .count()
}

// -- transaction marks ----------------------------------------------------------

/// Delivery numbers that are marked in a transaction.
pub fn marks(dest: &Dest, id: &ConsumerId) -> Vec<u64> {
    let st = dest.state.lock();
    let own = st.subs.iter().filter(|s| &s.id == id);
    own.flat_map(|s| s.inflight.iter().filter(|(_, i)| i.tx).map(|(dseq, _)| *dseq))
        .collect()
}

/// Marks these delivery numbers of a consumer, and no others.
pub fn set_marks(dest: &Dest, id: &ConsumerId, marked: &[u64]) {
    let mut st = dest.state.lock();
    for sub in st.subs.iter_mut().filter(|s| &s.id == id) {
        for (dseq, inflight) in &mut sub.inflight {
            inflight.tx = marked.contains(dseq);
        }
    }
}

// -- a topic's surplus ----------------------------------------------------------

/// What was taken from lists that an entry would bring over the limit.
#[derive(Default)]
pub struct Surplus {
    /// Lists that the entry brings over the limit.
    pub over: u64,
    /// Expired copies that waited in them.
    pub expired: u64,
    /// Consumers that are passed over, as the entry itself has expired, with their selectors.
    passed_over: Vec<(ConsumerId, Option<Arc<Selector>>)>,
}

impl Surplus {
    /// Lists that the expired entry does not get to.
    pub fn kept_out(&self) -> u64 {
        self.passed_over.len() as u64
    }
}

/// Document 02 §5, before an enqueue that is accepted. On a topic with a limit, a list that the entry brings over it loses what
/// has expired, by the broker's own `expire`; what is over besides is left to the broker. Where the entry itself has expired, it is one
/// of these: its consumer gets a selector that takes nothing, until `put_back`, so that the broker passes it over.
pub fn take_surplus(dest: &Dest, entry: &Entry, now_ms: i64, nothing: &Arc<Selector>) -> Surplus {
    let mut taken = Surplus::default();
    let max = dest.topic_max_pending;
    if dest.is_queue() || max == 0 {
        return taken;
    }
    let mut st = dest.state.lock();
    let State { subs, stats, .. } = &mut *st;
    for sub in subs.iter_mut() {
        if !sub.accepts(entry) || sub.tpending.len() < max {
            continue;
        }
        assert_eq!(sub.tpending.len(), max, "no list is over the limit between calls");
        taken.over += 1;
        let (gone, left) = std::mem::take(&mut sub.tpending)
            .into_iter()
            .partition(|(_, e)| e.expired(now_ms));
        sub.tpending = left;
        for (seq, e) in gone {
            sub.texpiry.remove(&(e.msg.expiration, seq));
            dest.expire(stats, e);
            taken.expired += 1;
        }
        if entry.expired(now_ms) {
            dest.expire(stats, entry.clone());
            let own = sub.selector.replace(nothing.clone());
            taken.passed_over.push((sub.id.clone(), own));
        }
    }
    taken
}

/// After the enqueue: the selectors as they were.
pub fn put_back(dest: &Dest, taken: Surplus) {
    let mut st = dest.state.lock();
    for (id, selector) in taken.passed_over {
        for sub in st.subs.iter_mut().filter(|s| s.id == id) {
            sub.selector = selector.clone();
        }
    }
}

// -- private queries ----------------------------------------------------------

/// The bytes that the broker counts for this destination (`DestUsage`).
pub fn usage(dest: &Dest) -> u64 {
    dest.usage.bytes.load(Ordering::Relaxed)
}

pub fn seq_at(dest: &Dest, index: usize) -> Option<u64> {
    dest.seq_at(index)
}

// -- the whole state ----------------------------------------------------------

/// The state as plain data, every map in an order of its own keys.
pub struct View {
    pub stats: Stats,
    pub turn: usize,
    pub idle: Option<Instant>,
    pub waiting: Vec<Entry>,
    pub subs: Vec<SubView>,
    pub reserved: Vec<(ConsumerId, Vec<Entry>)>,
    pub producers: Vec<ProducerId>,
    pub audits: Vec<(ProducerId, Vec<i64>)>,
}

pub struct SubView {
    pub id: ConsumerId,
    pub prefetch: usize,
    pub selector: Option<String>,
    pub no_local: bool,
    pub snapshot: Option<Vec<Entry>>,
    pub finished: bool,
    pub inflight: Vec<InflightView>,
    pub freed: usize,
    pub next_dseq: u64,
    pub cursor: u64,
    pub pull: Option<u64>,
    pub generation: u64,
    pub dispatched: u64,
    pub tpending: Vec<Entry>,
}

pub struct InflightView {
    pub dseq: u64,
    pub entry: Entry,
    pub freed: bool,
    pub tx: bool,
}

pub fn view(dest: &Dest) -> View {
    let st = dest.state.lock();
    View {
        stats: st.stats,
        turn: st.rr,
        idle: st.idle_since,
        waiting: st.pending.values().cloned().collect(),
        subs: st.subs.iter().map(sub_view).collect(),
        reserved: sorted(&st.reserved, Vec::clone),
        producers: sorted(&st.producers, |_| ())
            .into_iter()
            .map(|(id, ())| id)
            .collect(),
        audits: sorted(&st.audit, |a| a.order.iter().copied().collect()),
    }
}

fn sorted<K: Ord + Clone, V, W>(map: &HashMap<K, V>, plain: impl Fn(&V) -> W) -> Vec<(K, W)> {
    let in_order: BTreeMap<&K, &V> = map.iter().collect();
    in_order.into_iter().map(|(k, v)| (k.clone(), plain(v))).collect()
}

fn sub_view(sub: &Sub) -> SubView {
    SubView {
        id: sub.id.clone(),
        prefetch: sub.prefetch,
        selector: sub.selector.as_ref().map(|s| s.text().to_string()),
        no_local: sub.no_local,
        snapshot: sub.browser.as_ref().map(|b| b.iter().cloned().collect()),
        finished: sub.browse_finished,
        inflight: sub
            .inflight
            .iter()
            .map(|(dseq, i)| InflightView {
                dseq: *dseq,
                entry: i.entry.clone(),
                freed: i.freed,
                tx: i.tx,
            })
            .collect(),
        freed: sub.freed,
        next_dseq: sub.next_dseq,
        cursor: sub.cursor,
        pull: sub.pull,
        generation: sub.pull_generation,
        dispatched: sub.dispatched,
        tpending: sub.tpending.values().cloned().collect(),
    }
}

// -- what the port leaves out ---------------------------------------------------

/// Checks that what the port does not keep follows from what it keeps: the indexes by
/// sequence number and by expiration, the set beside an audit's order, the count of sends.
pub fn check_derived(dest: &Dest) -> Result<(), String> {
    let st = dest.state.lock();
    let State {
        pending,
        expiry,
        subs,
        audit,
        ..
    } = &*st;
    if *expiry != expirations(pending) {
        return Err("expiry is not the expirations of what waits".into());
    }
    for sub in subs {
        if sub.texpiry != expirations(&sub.tpending) {
            return Err(format!(
                "{}: texpiry is not the expirations of what waits",
                sub.id
            ));
        }
        let by_seq: HashMap<u64, u64> = sub.inflight.iter().map(|(d, i)| (i.entry.seq, *d)).collect();
        if sub.by_seq != by_seq || by_seq.len() != sub.inflight.len() {
            return Err(format!("{}: by_seq is not the inverse of inflight", sub.id));
        }
        if sub.freed != sub.inflight.values().filter(|i| i.freed).count() {
            return Err(format!("{}: freed is not the count of freed entries", sub.id));
        }
        if sub.dispatched != sub.next_dseq - 1 {
            return Err(format!(
                "{}: dispatched is not the delivery numbers given",
                sub.id
            ));
        }
    }
    for (id, a) in audit {
        let seen: BTreeSet<i64> = a.seen.iter().copied().collect();
        let order: BTreeSet<i64> = a.order.iter().copied().collect();
        if seen != order || a.order.len() != a.seen.len() || a.order.len() > super::AUDIT_WINDOW {
            return Err(format!("{id}: the audit's set is not its order"));
        }
    }
    if st.reserved.values().any(Vec::is_empty) {
        return Err("a consumer has an empty list of reserved entries".into());
    }
    Ok(())
}

fn expirations(entries: &BTreeMap<u64, Entry>) -> BTreeSet<(i64, u64)> {
    entries
        .iter()
        .filter(|(_, e)| e.msg.expiration > 0)
        .map(|(seq, e)| (e.msg.expiration, *seq))
        .collect()
}
