//! What each profile prefers.

use super::super::arguments::ALLOWANCE_MAX;
use super::super::callfile::code::*;

pub struct Profile {
    pub name: &'static str,
    /// Kinds opened: 0 queue, 1 topic.
    pub kinds: &'static [u64],
    pub topic_limits: &'static [u64],
    pub call_limits: &'static [u64],
    /// Allowances for slow clocks.
    pub allowances: &'static [u64],
    /// Shares of each producer connection; 0 stands for 512.
    pub shares: &'static [u64],
    /// Codes with their weights. A first half of a release is followed by its second.
    pub weights: &'static [(u64, u64)],
    /// How many different consumers there are.
    pub consumers: u64,
    pub prefetches: &'static [i64],
    /// Of ten joins, how many are browsers, have a selector, are no-local.
    pub browsers: u64,
    pub selectors: u64,
    pub no_locals: u64,
    /// Of ten entries, how many expire.
    pub expiring: u64,
    /// Of ten acknowledgements, how many are transacted.
    pub transacted: u64,
    /// The clock rises by at most this much a call, and goes back in so many of forty.
    pub clock_step: u64,
    pub clock_back: u64,
    /// Numbers at the ends of their ranges come up.
    pub wild: bool,
    /// Enqueues and joins until hardly a row is free.
    pub fill: bool,
    /// Of a hundred calls, how many have a spoilt word or code.
    pub bad_words: u64,
    /// The halves of a release come apart, each by itself.
    pub halves: bool,
    /// One block is broken.
    pub damaged: bool,
}

pub(super) const PLENTY: &[u64] = &[1 << 40, 100_000, 1_000_000];

pub(super) const MIXED: Profile = Profile {
    name: "mixed",
    kinds: &[0, 1],
    topic_limits: &[0, 0, 1, 2, 5, 512],
    call_limits: PLENTY,
    allowances: &[0],
    shares: &[0],
    weights: &[
        (OPEN, 1),
        (ENQUEUE, 90),
        (JOIN, 30),
        (LEAVE, 20),
        (ACK, 90),
        (PULL, 25),
        (TIMEOUT, 10),
        (PREFETCH, 15),
        (UNMARK, 10),
        (SWEEP, 8),
        (CLEAR, 1),
        (ADD_PRODUCER, 8),
        (REMOVE_PRODUCER, 6),
        (DUPLICATE, 15),
        (RELEASE_AUDITS, 2),
    ],
    consumers: 8,
    prefetches: &[0, 0, 1, 2, 3, 10, 1000, -1],
    browsers: 2,
    selectors: 3,
    no_locals: 3,
    expiring: 3,
    transacted: 3,
    clock_step: 3,
    clock_back: 1,
    wild: true,
    fill: false,
    bad_words: 2,
    halves: false,
    damaged: false,
};

pub(super) const QUEUE: Profile = Profile {
    name: "queue",
    kinds: &[0],
    weights: &[
        (ENQUEUE, 40),
        (JOIN, 6),
        (LEAVE, 4),
        (ACK, 40),
        (PREFETCH, 3),
        (UNMARK, 1),
    ],
    prefetches: &[1, 2, 3, 5, 10, 1000],
    browsers: 0,
    transacted: 1,
    expiring: 1,
    wild: false,
    bad_words: 0,
    ..MIXED
};

pub(super) const TOPIC: Profile = Profile {
    name: "topic",
    kinds: &[1],
    weights: &[
        (ENQUEUE, 40),
        (JOIN, 8),
        (LEAVE, 4),
        (ACK, 40),
        (PREFETCH, 4),
        (PULL, 4),
        (SWEEP, 1),
    ],
    prefetches: &[0, 1, 2, 3, 10],
    browsers: 1,
    expiring: 2,
    wild: false,
    bad_words: 0,
    ..MIXED
};

pub(super) const BROWSER: Profile = Profile {
    name: "browser",
    kinds: &[0, 0, 0, 1],
    weights: &[
        (ENQUEUE, 40),
        (JOIN, 16),
        (LEAVE, 10),
        (ACK, 40),
        (PULL, 8),
        (TIMEOUT, 2),
        (PREFETCH, 6),
        (SWEEP, 1),
        (CLEAR, 1),
    ],
    prefetches: &[0, 1, 2, 3, 100],
    browsers: 7,
    selectors: 4,
    wild: false,
    bad_words: 0,
    ..MIXED
};

pub(super) const TX: Profile = Profile {
    name: "tx",
    kinds: &[0, 0, 0, 1],
    weights: &[
        (ENQUEUE, 40),
        (JOIN, 16),
        (LEAVE, 14),
        (ACK, 60),
        (UNMARK, 10),
        (PREFETCH, 3),
        (SWEEP, 1),
    ],
    prefetches: &[1, 3, 5, 10, 100],
    consumers: 5,
    browsers: 1,
    transacted: 6,
    expiring: 2,
    wild: false,
    bad_words: 0,
    ..MIXED
};

const PULLS: Profile = Profile {
    name: "pull",
    kinds: &[0, 0, 1],
    weights: &[
        (ENQUEUE, 30),
        (JOIN, 8),
        (LEAVE, 5),
        (ACK, 20),
        (PULL, 40),
        (TIMEOUT, 20),
        (PREFETCH, 6),
    ],
    prefetches: &[0, 0, 0, 0, 0, -1, 1, 2],
    bad_words: 0,
    ..MIXED
};

pub(super) const EXPIRY: Profile = Profile {
    name: "expiry",
    weights: &[
        (ENQUEUE, 50),
        (JOIN, 10),
        (LEAVE, 8),
        (ACK, 40),
        (PULL, 8),
        (PREFETCH, 5),
        (UNMARK, 4),
        (SWEEP, 4),
        (ADD_PRODUCER, 1),
        (REMOVE_PRODUCER, 2),
    ],
    prefetches: &[0, 1, 1, 2, 3],
    expiring: 9,
    clock_step: 2,
    bad_words: 0,
    ..MIXED
};

pub(super) const ROWS: Profile = Profile {
    name: "rows",
    topic_limits: &[0, 0, 0, 100, 512],
    weights: &[
        (ENQUEUE, 40),
        (JOIN, 14),
        (LEAVE, 3),
        (ACK, 20),
        (PREFETCH, 4),
        (PULL, 4),
        (UNMARK, 3),
        (SWEEP, 1),
    ],
    consumers: 36,
    prefetches: &[0, 1, 10, 1000, 1000],
    browsers: 6,
    selectors: 2,
    no_locals: 1,
    expiring: 1,
    wild: false,
    fill: true,
    bad_words: 0,
    ..MIXED
};

const CONSUMERS: Profile = Profile {
    name: "consumers",
    weights: &[
        (ENQUEUE, 20),
        (JOIN, 60),
        (LEAVE, 6),
        (ACK, 20),
        (PULL, 6),
        (PREFETCH, 4),
        (UNMARK, 2),
        (TIMEOUT, 2),
    ],
    consumers: 40,
    bad_words: 0,
    ..MIXED
};

const LIMITS: Profile = Profile {
    name: "limits",
    topic_limits: &[0, 1, 2, 511, 512],
    call_limits: &[1, 2, 3, 10, 20, 30, 60, 1 << 40],
    allowances: &[0, 0, 1, 20, ALLOWANCE_MAX - 1, ALLOWANCE_MAX],
    shares: &[0, 1, 2, 5, 511, 512],
    weights: &[
        (OPEN, 6),
        (ENQUEUE, 20),
        (JOIN, 10),
        (LEAVE, 6),
        (ACK, 20),
        (PULL, 8),
        (TIMEOUT, 6),
        (PREFETCH, 6),
        (UNMARK, 6),
        (SWEEP, 6),
        (CLEAR, 6),
        (ADD_PRODUCER, 6),
        (REMOVE_PRODUCER, 6),
        (DUPLICATE, 6),
        (RELEASE_AUDITS, 6),
    ],
    bad_words: 8,
    ..MIXED
};

pub(super) const BADWORDS: Profile = Profile {
    name: "badwords",
    weights: LIMITS.weights,
    call_limits: PLENTY,
    bad_words: 50,
    ..LIMITS
};

const AUDITS: Profile = Profile {
    name: "audits",
    weights: &[
        (DUPLICATE, 1000),
        (ADD_PRODUCER, 20),
        (REMOVE_PRODUCER, 4),
        (RELEASE_AUDITS, 1),
        (ENQUEUE, 4),
        (JOIN, 2),
        (LEAVE, 2),
    ],
    bad_words: 0,
    ..MIXED
};

const SWEEP_MANY: Profile = Profile {
    name: "sweep",
    weights: &[
        (ENQUEUE, 50),
        (JOIN, 6),
        (LEAVE, 6),
        (ACK, 10),
        (SWEEP, 20),
        (UNMARK, 2),
    ],
    prefetches: &[0, 0, 1, 2],
    expiring: 8,
    clock_step: 1,
    bad_words: 0,
    ..MIXED
};

const CLEAR_MANY: Profile = Profile {
    name: "clear",
    weights: &[
        (ENQUEUE, 50),
        (JOIN, 14),
        (LEAVE, 10),
        (ACK, 30),
        (PULL, 8),
        (TIMEOUT, 2),
        (PREFETCH, 6),
        (UNMARK, 3),
        (CLEAR, 7),
    ],
    browsers: 4,
    transacted: 4,
    wild: false,
    bad_words: 0,
    ..MIXED
};

const PRODUCERS: Profile = Profile {
    name: "producers",
    weights: &[
        (ADD_PRODUCER, 50),
        (REMOVE_PRODUCER, 12),
        (DUPLICATE, 20),
        (RELEASE_AUDITS, 3),
        (ENQUEUE, 3),
        (JOIN, 2),
        (LEAVE, 3),
        (CLEAR, 2),
    ],
    bad_words: 0,
    ..MIXED
};

pub(super) const HALVES: Profile = Profile {
    name: "halves",
    kinds: &[0, 0, 0, 1],
    weights: &[
        (ENQUEUE, 40),
        (JOIN, 24),
        (LEAVE, 18),
        (ACK, 60),
        (UNMARK, 12),
        (RELEASE, 12),
        (PREFETCH, 3),
        (SWEEP, 1),
        (CLEAR, 1),
    ],
    prefetches: &[1, 3, 5, 10, 100],
    consumers: 4,
    browsers: 1,
    transacted: 7,
    expiring: 2,
    wild: false,
    bad_words: 0,
    halves: true,
    ..MIXED
};

pub(super) const ALLOWANCE: Profile = Profile {
    name: "allowance",
    allowances: &[0, 1, 2, 5, 10, 20, 40],
    weights: &[
        (OPEN, 1),
        (ENQUEUE, 60),
        (JOIN, 14),
        (LEAVE, 10),
        (ACK, 40),
        (PULL, 8),
        (PREFETCH, 5),
        (UNMARK, 5),
        (SWEEP, 6),
        (ADD_PRODUCER, 1),
        (REMOVE_PRODUCER, 2),
    ],
    prefetches: &[0, 1, 1, 2, 3],
    browsers: 3,
    expiring: 9,
    clock_step: 2,
    clock_back: 4,
    bad_words: 0,
    ..MIXED
};

const DRIFT: Profile = Profile {
    name: "drift",
    allowances: &[30, 1000, 3_600_000, ALLOWANCE_MAX - 1, ALLOWANCE_MAX],
    weights: ALLOWANCE.weights,
    clock_step: 3,
    clock_back: 12,
    wild: false,
    ..ALLOWANCE
};

pub(super) const SURPLUS: Profile = Profile {
    name: "surplus",
    kinds: &[1],
    topic_limits: &[1, 1, 2, 2, 3, 3],
    allowances: &[0, 0, 1, 5, 20],
    weights: &[
        (OPEN, 1),
        (ENQUEUE, 80),
        (JOIN, 12),
        (LEAVE, 5),
        (ACK, 24),
        (PULL, 8),
        (TIMEOUT, 2),
        (PREFETCH, 4),
        (SWEEP, 1),
    ],
    consumers: 6,
    prefetches: &[0, 0, 1, 1, 2],
    browsers: 1,
    selectors: 3,
    no_locals: 2,
    expiring: 7,
    clock_step: 3,
    clock_back: 8,
    wild: false,
    bad_words: 0,
    ..MIXED
};

pub(super) const SHARES: Profile = Profile {
    name: "shares",
    kinds: &[0, 0, 1],
    shares: &[1, 2, 3, 5, 10, 20, 100, 511, 512, 0],
    weights: &[
        (OPEN, 1),
        (ENQUEUE, 120),
        (JOIN, 16),
        (LEAVE, 8),
        (ACK, 40),
        (PULL, 6),
        (PREFETCH, 4),
        (UNMARK, 6),
        (SWEEP, 3),
        (CLEAR, 1),
    ],
    prefetches: &[0, 0, 1, 2, 5, 100],
    browsers: 3,
    selectors: 2,
    no_locals: 1,
    transacted: 5,
    wild: false,
    bad_words: 0,
    ..MIXED
};

const FULL_SHARES: Profile = Profile {
    name: "fullshares",
    shares: &[64, 85, 100, 102, 103, 128, 128, 200],
    topic_limits: ROWS.topic_limits,
    weights: ROWS.weights,
    consumers: 12,
    prefetches: ROWS.prefetches,
    browsers: 1,
    wild: false,
    fill: true,
    bad_words: 0,
    ..MIXED
};

const DAMAGED: Profile = Profile {
    name: "damaged",
    damaged: true,
    ..MIXED
};

static PROFILES: [Profile; 22] = [
    QUEUE,
    TOPIC,
    BROWSER,
    TX,
    PULLS,
    EXPIRY,
    ROWS,
    CONSUMERS,
    LIMITS,
    BADWORDS,
    AUDITS,
    SWEEP_MANY,
    CLEAR_MANY,
    PRODUCERS,
    HALVES,
    ALLOWANCE,
    DRIFT,
    SURPLUS,
    SHARES,
    FULL_SHARES,
    DAMAGED,
    MIXED,
];

impl Profile {
    pub fn find(name: &str) -> Option<&'static Profile> {
        PROFILES.iter().find(|p| p.name == name)
    }
}

pub fn names() -> impl Iterator<Item = &'static str> {
    PROFILES.iter().map(|p| p.name)
}
