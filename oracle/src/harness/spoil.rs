//! Shows that the comparison can fail: a word in use of what the library has left is changed, and the
//! comparison must then find a difference. Each class of words has a name.

use std::collections::BTreeMap;

use super::library::{Asked, Lent, Outcome, ALLOWANCE_AT, AUDIT, AUDITS_AT, PRODUCERS_AT, SHARE_AT, SIZE_AT};
use super::random::Random;
use super::sides::Both;

/// Where a word stands.
#[derive(Clone, Copy)]
enum Place {
    Refusal,
    Answer,
    Events,
    Bytes,
    Head(usize),
    Sub(usize, usize),
    Row(usize, usize),
    Event(usize, usize),
}

/// A class of words, and how often one of them was changed and noticed.
#[derive(Default)]
pub struct Spoiling {
    classes: BTreeMap<String, (u64, u64)>,
}

const HEAD: [&str; 17] = [
    "kind",
    "topic limit",
    "call limit",
    "calls used",
    "turn",
    "idle mark",
    "idle clock",
    "enqueued",
    "dequeued",
    "expired",
    "discarded",
    "dispatched",
    "consumers",
    "producers",
    "audits",
    "reserved rows",
    "waiting rows",
];
const ID: [&str; 3] = ["connection", "session", "value"];
const SUB: [&str; 16] = [
    "connection",
    "session",
    "value",
    "prefetch",
    "selector",
    "no local",
    "browser",
    "browse finished",
    "next delivery number",
    "cursor",
    "pull waits",
    "generation of the pull",
    "pull generation",
    "freed rows",
    "rows in flight",
    "rows held",
];
const ENTRY: [&str; 6] = [
    "sequence",
    "expiration",
    "persistent",
    "producer's connection",
    "match word",
    "redelivery",
];
const FLYING: [&str; 3] = ["delivery number", "freed", "tx"];

type Places = BTreeMap<String, Vec<Place>>;

impl Spoiling {
    /// Changes a word of each class that is in use after this call.
    pub fn all(&mut self, both: &Both, lent: &Lent, random: &mut Random) {
        for (class, places) in places(both, lent) {
            let at = places[random.below(places.len() as u64) as usize];
            let (mut outcome, mut bytes, mut changed) = (both.outcome, both.bytes, lent.clone());
            change(at, &mut outcome, &mut bytes, &mut changed);
            let noticed = both.difference(outcome, bytes, &changed).is_some();
            let counts = self.classes.entry(class).or_default();
            counts.0 += 1;
            counts.1 += u64::from(noticed);
        }
    }

    /// A line for each class, and whether each change was noticed.
    pub fn report(&self) -> (String, bool) {
        let mut text = String::new();
        let mut all = true;
        for (class, (tried, noticed)) in &self.classes {
            text += &format!("{class}: changed {tried}, noticed {noticed}\n");
            all &= tried == noticed;
        }
        for class in every_class() {
            if !self.classes.contains_key(&class) {
                text += &format!("{class}: never in use\n");
                all = false;
            }
        }
        text += &format!("{} classes\n", self.classes.len());
        (text, all)
    }
}

fn change(at: Place, outcome: &mut Outcome, bytes: &mut Asked, lent: &mut Lent) {
    match at {
        Place::Refusal => outcome.refusal ^= 1,
        Place::Answer => outcome.answer ^= 1,
        Place::Events => outcome.events ^= 1,
        Place::Bytes => bytes.answer ^= 1,
        Place::Head(k) => lent.head[k] ^= 1,
        Place::Sub(i, k) => lent.subs[i][k] ^= 1,
        Place::Row(i, k) => lent.rows[i][k] ^= 1,
        Place::Event(i, k) => lent.events[i][k] ^= 1,
    }
}

/// The classes that a run has to come by.
fn every_class() -> Vec<String> {
    let named = |group: &str, names: &[&str]| -> Vec<String> {
        names.iter().map(|name| format!("{group}: {name}")).collect()
    };
    let mut all = named("outcome", &["refusal", "answer", "events"]);
    all.extend(named("bytes held", &["answer"]));
    all.extend(named("head", &HEAD));
    all.extend(named("head", &["allowance", "share"]));
    all.extend(named("consumer", &SUB));
    all.extend(named("in flight", &ENTRY));
    all.extend(named("in flight", &FLYING));
    all.extend(named("in flight", &["size"]));
    for group in ["waits on a topic", "snapshot", "reserved", "waits"] {
        all.extend(named(group, &ENTRY));
        all.extend(named(group, &["size"]));
    }
    all.extend(named("reserved", &ID));
    all.extend(named("producer", &ID));
    all.extend(named("audit", &ID));
    all.extend(named("audit", &["start", "count", "number"]));
    for kind in 1..=3 {
        all.extend((0..6).map(|k| format!("event {kind}: word {k}")));
    }
    all
}

/// The words in use, by class.
fn places(both: &Both, lent: &Lent) -> Places {
    let mut all = Places::new();
    let mut add = |class: String, place: Place| all.entry(class).or_default().push(place);
    add("outcome: refusal".into(), Place::Refusal);
    add("outcome: answer".into(), Place::Answer);
    add("outcome: events".into(), Place::Events);
    add("bytes held: answer".into(), Place::Bytes);
    for (i, event) in lent.events[..both.outcome.events].iter().enumerate() {
        for k in 0..event.len() {
            add(format!("event {}: word {k}", event[0]), Place::Event(i, k));
        }
    }
    if both.whole.is_some() {
        head_places(&mut add, lent);
        table_places(&mut add, lent);
    }
    all
}

fn head_places(add: &mut impl FnMut(String, Place), lent: &Lent) {
    let h = &lent.head;
    for (k, name) in HEAD.iter().enumerate() {
        if k != 6 || h[5] != 0 {
            add(format!("head: {name}"), Place::Head(k));
        }
    }
    add("head: allowance".into(), Place::Head(ALLOWANCE_AT));
    add("head: share".into(), Place::Head(SHARE_AT));
    for i in 0..h[13] as usize {
        for (k, name) in ID.iter().enumerate() {
            add(format!("producer: {name}"), Place::Head(PRODUCERS_AT + 3 * i + k));
        }
    }
    for i in 0..h[14] as usize {
        let from = AUDITS_AT + AUDIT * i;
        for (k, name) in ID.iter().enumerate() {
            add(format!("audit: {name}"), Place::Head(from + k));
        }
        add("audit: start".into(), Place::Head(from + 3));
        add("audit: count".into(), Place::Head(from + 4));
        for k in 0..h[from + 4] as usize {
            add("audit: number".into(), Place::Head(from + 5 + k));
        }
    }
}

fn table_places(add: &mut impl FnMut(String, Place), lent: &Lent) {
    let h = &lent.head;
    let held = if h[0] == 0 { "snapshot" } else { "waits on a topic" };
    let mut from = 0;
    for (i, sub) in lent.subs[..h[12] as usize].iter().enumerate() {
        for (k, name) in SUB.iter().enumerate() {
            if k != 11 || sub[10] != 0 {
                add(format!("consumer: {name}"), Place::Sub(i, k));
            }
        }
        from = row_places(add, "in flight", &FLYING, from, sub[14]);
        from = row_places(add, held, &[], from, sub[15]);
    }
    from = row_places(add, "reserved", &ID, from, h[15]);
    row_places(add, "waits", &[], from, h[16]);
}

/// The rows of one part of the table; returns where it ends.
fn row_places(
    add: &mut impl FnMut(String, Place),
    group: &str,
    more: &[&str],
    from: usize,
    count: u64,
) -> usize {
    let end = from + count as usize;
    for i in from..end {
        for (k, name) in ENTRY.iter().chain(more).enumerate() {
            debug_assert!(k < SIZE_AT);
            add(format!("{group}: {name}"), Place::Row(i, k));
        }
        add(format!("{group}: size"), Place::Row(i, SIZE_AT));
    }
    end
}
