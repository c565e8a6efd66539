//! The whole state as plain numbers, every list in a fixed order: the broker's here, the library's
//! in `library`. Two states are the same when these are equal.

use std::collections::BTreeMap;

use super::engine::Opened;
use super::host::{self, EntryNumbers, Id};
use crate::broker::destination::probe::{self, SubView};
use crate::broker::entry::Entry;

#[derive(Clone, Debug, Default, PartialEq)]
pub struct Whole {
    pub queue: bool,
    pub topic_limit: u64,
    pub call_limit: u64,
    pub calls_used: u64,
    pub allowance: u64,
    pub share: u64,
    /// The clock of the idle mark.
    pub idle: Option<u64>,
    /// Enqueued, dequeued, expired, discarded, dispatched.
    pub stats: [u64; 5],
    pub turn: u64,
    pub waiting: Vec<EntryNumbers>,
    pub subs: Vec<SubNumbers>,
    pub reserved: Vec<(Id, Vec<EntryNumbers>)>,
    pub producers: Vec<Id>,
    pub audits: Vec<(Id, Vec<i64>)>,
}

/// A consumer.
#[derive(Clone, Debug, Default, PartialEq)]
pub struct SubNumbers {
    pub id: Id,
    pub prefetch: u64,
    pub selector: u64,
    pub no_local: bool,
    pub browser: bool,
    pub finished: bool,
    pub freed: u64,
    pub next: u64,
    pub cursor: u64,
    pub pull: Option<u64>,
    pub generation: u64,
    pub sent: u64,
    pub inflight: Vec<InflightNumbers>,
    pub tpending: Vec<EntryNumbers>,
    pub snapshot: Vec<EntryNumbers>,
}

#[derive(Clone, Copy, Debug, PartialEq)]
pub struct InflightNumbers {
    pub dseq: u64,
    pub freed: bool,
    pub tx: bool,
    pub entry: EntryNumbers,
}

impl Whole {
    /// The broker's state.
    pub fn of(opened: &Opened) -> Whole {
        let view = probe::view(&opened.dest);
        assert_eq!(
            view.idle.is_some(),
            opened.idle_clock().is_some(),
            "the idle mark is followed"
        );
        let s = view.stats;
        let mut whole = Whole {
            queue: opened.dest.is_queue(),
            topic_limit: opened.topic_limit,
            call_limit: opened.call_limit,
            calls_used: opened.calls_used,
            allowance: opened.allowance,
            share: opened.share,
            idle: opened.idle_clock(),
            stats: [s.enqueued, s.dequeued, s.expired, s.discarded, s.dispatched],
            turn: view.turn as u64,
            waiting: entries(&view.waiting),
            subs: view.subs.iter().map(sub).collect(),
            reserved: view
                .reserved
                .iter()
                .map(|(id, list)| (host::consumer_number(id), entries(list)))
                .collect(),
            producers: view.producers.iter().map(host::producer_number).collect(),
            audits: view
                .audits
                .into_iter()
                .map(|(id, list)| (host::producer_number(&id), list))
                .collect(),
        };
        whole.arrange();
        // The broker clears these with the second half.
        for sub in whole.subs.iter_mut().filter(|s| opened.unmarked() == Some(s.id)) {
            sub.inflight.iter_mut().for_each(|i| i.tx = false);
        }
        whole
    }

    /// Puts what has no order of its own into that of identifiers.
    pub fn arrange(&mut self) {
        self.reserved.sort_by_key(|(id, _)| order(*id));
        self.producers.sort_by_key(|id| order(*id));
        self.audits.sort_by_key(|(id, _)| order(*id));
    }

    /// Every copy, in whatever place.
    fn copies(&self) -> impl Iterator<Item = &EntryNumbers> {
        let subs = self.subs.iter().flat_map(|s| {
            let inflight = s.inflight.iter().map(|i| &i.entry);
            inflight.chain(&s.tpending).chain(&s.snapshot)
        });
        let reserved = self.reserved.iter().flat_map(|(_, list)| list);
        self.waiting.iter().chain(subs).chain(reserved)
    }

    /// The entries held, each once however many copies it has, by their numbers.
    pub fn held(&self) -> BTreeMap<u64, EntryNumbers> {
        self.copies().map(|e| (e.sequence, *e)).collect()
    }

    /// The sizes of the entries held, as the calls gave them.
    pub fn bytes(&self) -> u64 {
        self.held().values().map(|e| e.size).sum()
    }

    pub fn rows(&self) -> usize {
        let of_subs = self
            .subs
            .iter()
            .map(|s| s.inflight.len() + s.tpending.len() + s.snapshot.len());
        let reserved = self.reserved.iter().map(|(_, list)| list.len());
        self.waiting.len() + of_subs.sum::<usize>() + reserved.sum::<usize>()
    }
}

/// Connections in the order of their numbers, sessions and values as signed.
fn order(id: Id) -> (u64, i64, i64) {
    (id[0], id[1] as i64, id[2] as i64)
}

fn entries(list: &[Entry]) -> Vec<EntryNumbers> {
    list.iter().map(host::entry_numbers).collect()
}

fn sub(view: &SubView) -> SubNumbers {
    SubNumbers {
        id: host::consumer_number(&view.id),
        prefetch: view.prefetch as u64,
        selector: host::selector_number(view.selector.as_deref()),
        no_local: view.no_local,
        browser: view.snapshot.is_some(),
        finished: view.finished,
        freed: view.freed as u64,
        next: view.next_dseq,
        cursor: view.cursor,
        pull: view.pull,
        generation: view.generation,
        sent: view.dispatched,
        inflight: view
            .inflight
            .iter()
            .map(|i| InflightNumbers {
                dseq: i.dseq,
                freed: i.freed,
                tx: i.tx,
                entry: host::entry_numbers(&i.entry),
            })
            .collect(),
        tpending: entries(&view.tpending),
        snapshot: entries(view.snapshot.as_deref().unwrap_or_default()),
    }
}
