//! Random call files of stations. Each destination's calls are made as those of a file of its own, by the profile that its
//! number has; what a station adds is put in: names, no numbers for enqueues, many rejections.

use super::super::callfile::{ack_bit, code, Call};
use super::super::host;
use super::super::station::{self, Station, NAME_AT, PLACES};
use super::profiles::{self, Profile};
use super::{build, Maker};
use crate::openwire::model::ack_type;

/// Which dead-letter destination an open names.
#[derive(Clone, Copy)]
enum Naming {
    /// The one after it, and the last none.
    Chain,
    Itself,
    /// The one after it, in rings of this many.
    Ring(u64),
    /// This one.
    One(u64),
    /// Any that is used; now and then one that is not, or none.
    Any,
}

pub struct StationProfile {
    pub name: &'static str,
    naming: Naming,
    /// How many destinations are used.
    places: u64,
    /// Profiles of the destinations, by number, again from the first where there are fewer.
    of: &'static [&'static Profile],
    /// Of ten acknowledgements, how many are made a rejection outside a transaction.
    poison: u64,
    /// Of ten of these, how many are of what is reserved for a consumer that has left.
    absent: u64,
    /// Of ten entries, how many are made persistent.
    persistent: u64,
    /// Of a thousand calls, how many open a destination, close all by a start, and go to a destination that is not open.
    opens: u64,
    starts: u64,
    astray: u64,
    /// Calls before the first start.
    early: u64,
    /// Of a hundred calls, how many are spoilt.
    bad_words: u64,
    damaged: bool,
}

// -- destinations -------------------------------------------------------------------

/// A queue whose consumers take entries and reject them.
const WORK: Profile = Profile {
    name: "work",
    weights: &[
        (code::ENQUEUE, 40),
        (code::JOIN, 8),
        (code::LEAVE, 3),
        (code::ACK, 60),
        (code::PREFETCH, 3),
        (code::PULL, 3),
        (code::UNMARK, 1),
        (code::SWEEP, 1),
    ],
    consumers: 5,
    ..profiles::QUEUE
};

/// Few rows for each connection.
const NARROW: Profile = Profile {
    name: "narrow",
    shares: &[1, 1, 2, 3, 5, 0],
    ..WORK
};

/// Few calls.
const SHORT: Profile = Profile {
    name: "short",
    call_limits: &[1, 2, 3, 5, 8, 13, 20, 30, 60],
    ..WORK
};

/// Hardly a call.
const SPENT: Profile = Profile {
    name: "spent",
    call_limits: &[1, 1, 2, 3],
    ..WORK
};

/// A topic that many consumers fill.
const FULL_TOPIC: Profile = Profile {
    name: "full topic",
    kinds: &[1],
    topic_limits: &[0, 0, 100, 512],
    weights: &[
        (code::ENQUEUE, 30),
        (code::JOIN, 20),
        (code::LEAVE, 2),
        (code::ACK, 10),
        (code::PULL, 4),
        (code::SWEEP, 1),
    ],
    consumers: 34,
    prefetches: &[0, 0, 0, 1, 1000],
    selectors: 2,
    no_locals: 1,
    expiring: 1,
    fill: true,
    ..profiles::TOPIC
};

/// A queue that browsers' copies fill.
const FULL_QUEUE: Profile = Profile {
    name: "full queue",
    kinds: &[0],
    weights: FULL_TOPIC.weights,
    consumers: 34,
    prefetches: &[0, 1, 2, 1000],
    browsers: 9,
    selectors: 0,
    expiring: 1,
    fill: true,
    ..profiles::BROWSER
};

/// Consumers that wait, and little comes directly.
const IDLE: Profile = Profile {
    name: "idle",
    kinds: &[0, 0, 1],
    weights: &[
        (code::ENQUEUE, 2),
        (code::JOIN, 20),
        (code::LEAVE, 6),
        (code::ACK, 20),
        (code::PULL, 20),
        (code::TIMEOUT, 5),
        (code::PREFETCH, 5),
    ],
    prefetches: &[0, 0, 1, 2, 1000],
    browsers: 1,
    ..WORK
};

/// Selectors and no-local on both kinds.
const CHOOSY: Profile = Profile {
    name: "choosy",
    kinds: &[0, 1],
    selectors: 8,
    no_locals: 5,
    browsers: 1,
    prefetches: &[1, 2, 5, 1000],
    ..WORK
};

/// Allowances and shares, expirations about now.
const SLOW: Profile = Profile {
    name: "slow",
    kinds: &[0, 0, 1],
    topic_limits: &[0, 0, 1, 2, 3],
    allowances: &[0, 1, 2, 5, 10, 20, 40],
    shares: &[0, 0, 0, 2, 5],
    consumers: 4,
    prefetches: &[1, 1, 2, 3, 10],
    browsers: 1,
    expiring: 9,
    clock_step: 2,
    clock_back: 4,
    ..WORK
};

/// Entries that soon expire.
const BRIEF: Profile = Profile {
    name: "brief",
    kinds: &[0, 0, 1],
    topic_limits: &[0, 0, 1, 2, 3],
    allowances: &[0],
    shares: &[0],
    clock_step: 6,
    prefetches: &[1, 2, 3, 10],
    ..SLOW
};

/// Transactions, leaves, and entries reserved.
const RESERVING: Profile = Profile {
    name: "reserving",
    halves: false,
    ..profiles::HALVES
};

const SMALL_TOPIC: Profile = Profile {
    name: "small topic",
    shares: &[0, 0, 3, 10],
    consumers: 6,
    prefetches: &[1, 2, 3, 10, 1000],
    ..profiles::TOPIC
};

const ANYTHING: Profile = Profile {
    name: "anything",
    allowances: &[0, 0, 0, 5, 20],
    shares: &[0, 0, 0, 2, 10],
    bad_words: 0,
    ..profiles::MIXED
};

const SPOILT: Profile = Profile {
    bad_words: 0,
    ..profiles::BADWORDS
};

// -- stations -----------------------------------------------------------------------

const MIXED: StationProfile = StationProfile {
    name: "mixed",
    naming: Naming::Any,
    places: 8,
    of: &[&ANYTHING],
    poison: 5,
    absent: 0,
    persistent: 7,
    opens: 10,
    starts: 1,
    astray: 10,
    early: 0,
    bad_words: 2,
    damaged: false,
};

const CALM: StationProfile = StationProfile {
    opens: 1,
    starts: 0,
    astray: 2,
    bad_words: 0,
    poison: 7,
    persistent: 9,
    ..MIXED
};

static PROFILES: [StationProfile; 21] = [
    StationProfile {
        name: "chain",
        naming: Naming::Chain,
        of: &[&WORK, &NARROW, &WORK, &NARROW],
        ..CALM
    },
    StationProfile {
        name: "itself",
        naming: Naming::Itself,
        places: 3,
        of: &[&WORK, &SMALL_TOPIC, &NARROW],
        ..CALM
    },
    StationProfile {
        name: "ring",
        naming: Naming::Ring(8),
        of: &[&NARROW],
        ..CALM
    },
    StationProfile {
        name: "rings",
        naming: Naming::Ring(3),
        of: &[&NARROW, &SHORT, &NARROW],
        opens: 10,
        ..CALM
    },
    StationProfile {
        name: "deep",
        naming: Naming::Ring(8),
        of: &[&WORK, &SPENT, &SPENT, &SPENT, &SPENT, &SPENT, &SPENT, &SPENT],
        opens: 3,
        ..CALM
    },
    StationProfile {
        name: "full",
        naming: Naming::Ring(4),
        places: 4,
        of: &[&WORK, &FULL_TOPIC, &WORK, &FULL_QUEUE],
        ..CALM
    },
    StationProfile {
        name: "closed",
        places: 3,
        of: &[&WORK],
        opens: 3,
        starts: 4,
        astray: 60,
        ..CALM
    },
    StationProfile {
        name: "none",
        naming: Naming::One(8),
        places: 3,
        of: &[&WORK, &SMALL_TOPIC],
        ..CALM
    },
    StationProfile {
        name: "calls",
        of: &[&WORK, &SHORT],
        opens: 40,
        ..CALM
    },
    StationProfile {
        name: "topics",
        of: &[&SMALL_TOPIC],
        places: 4,
        ..CALM
    },
    StationProfile {
        name: "browsers",
        of: &[&profiles::BROWSER],
        places: 4,
        ..CALM
    },
    StationProfile {
        name: "allowances",
        of: &[&SLOW],
        places: 4,
        opens: 5,
        ..CALM
    },
    StationProfile {
        name: "expired",
        of: &[&BRIEF],
        places: 4,
        ..CALM
    },
    StationProfile {
        name: "waiting",
        naming: Naming::Ring(2),
        places: 4,
        of: &[&WORK, &IDLE],
        ..CALM
    },
    StationProfile {
        name: "selectors",
        of: &[&CHOOSY],
        places: 4,
        ..CALM
    },
    StationProfile {
        name: "reserved",
        of: &[&RESERVING, &profiles::HALVES],
        places: 3,
        poison: 4,
        absent: 5,
        ..CALM
    },
    StationProfile {
        name: "shares",
        of: &[&profiles::SHARES, &NARROW, &SMALL_TOPIC],
        places: 5,
        opens: 5,
        ..CALM
    },
    StationProfile {
        name: "starts",
        of: &[&WORK, &SHORT, &SMALL_TOPIC],
        opens: 60,
        starts: 15,
        astray: 40,
        early: 40,
        ..CALM
    },
    StationProfile {
        name: "badwords",
        of: &[&SPOILT, &WORK],
        early: 20,
        bad_words: 40,
        astray: 40,
        opens: 30,
        starts: 4,
        ..MIXED
    },
    StationProfile {
        name: "damaged",
        damaged: true,
        ..MIXED
    },
    MIXED,
];

impl StationProfile {
    pub fn find(name: &str) -> Option<&'static StationProfile> {
        PROFILES.iter().find(|p| p.name == name)
    }
}

pub fn names() -> impl Iterator<Item = &'static str> {
    PROFILES.iter().map(|p| p.name)
}

// -- files --------------------------------------------------------------------------

/// Makes a station's call file: the same for the same seed, profile and number of calls.
pub fn file(seed: u64, profile: &'static StationProfile, calls: usize) -> Vec<u8> {
    let mut maker = StationMaker::new(seed, profile);
    while maker.calls.len() < calls {
        maker.step();
    }
    let mut whole = maker.maker;
    whole.calls = maker.calls;
    let blocks = whole.blocks();
    if profile.damaged {
        return whole.damage(blocks);
    }
    blocks.concat()
}

/// A station's call file being made. The maker of one destination's calls is lent the destination whose turn it is.
struct StationMaker {
    profile: &'static StationProfile,
    maker: Maker,
    station: Station,
    calls: Vec<Call>,
    /// Each destination's own calls, and the last refusal there.
    own: [(Vec<Call>, u8); PLACES],
}

impl StationMaker {
    fn new(seed: u64, profile: &'static StationProfile) -> StationMaker {
        let mut maker = Maker::new(seed, profile.of[0]);
        // Profiles of the same seed shall differ.
        for byte in profile.name.bytes() {
            maker.random = super::Random::new(maker.random.word() ^ u64::from(byte));
        }
        StationMaker {
            profile,
            maker,
            station: Station::new(),
            calls: Vec::new(),
            own: Default::default(),
        }
    }

    fn step(&mut self) {
        self.maker.tick();
        let mut call = self.next_call();
        if self.maker.random.chance(self.profile.bad_words, 100) {
            self.spoil(&mut call);
        }
        let reply = self.station.call(&call);
        let (place, code) = station::place_of(&call);
        if let Some((calls, refusal)) = self.own.get_mut(place as usize) {
            calls.push(Call { code, ..call });
            *refusal = reply.refusal;
        }
        self.calls.push(call);
    }

    fn next_call(&mut self) -> Call {
        let p = self.profile;
        let made = self.calls.len() as u64;
        if !self.station.started() {
            if made >= p.early {
                return Call::new(code::START, &[]);
            }
            let at = self.maker.random.below(p.places);
            let code = self.maker.random.below(20);
            return self.call_at(at, if code > 15 { code::OPEN } else { code });
        }
        match self.maker.random.below(1000) {
            k if k < p.starts => return Call::new(code::START, &[]),
            k if k < p.starts + p.opens => {
                let at = self.maker.random.below(p.places);
                return self.call_at(at, code::OPEN);
            }
            k if k < p.starts + p.opens + p.astray => {
                let at = self.maker.random.below(PLACES as u64);
                let code = 1 + self.maker.random.below(15);
                return self.call_at(at, code);
            }
            _ => {}
        }
        let at = self.place();
        let code = self.lent(at, |maker| maker.next_code());
        self.call_at(at, code)
    }

    /// The second half of a release at once, where its first was the last call; else mostly a destination that is open.
    fn place(&mut self) -> u64 {
        if let Some((at, code::UNMARK)) = self.calls.last().map(station::place_of) {
            if at < PLACES as u64 && self.maker.random.chance(3, 4) {
                return at;
            }
        }
        let at = self.maker.random.below(self.profile.places);
        if self.station.is_open(at as usize) || self.maker.random.chance(1, 4) {
            return at;
        }
        let open: Vec<u64> = (0..self.profile.places)
            .filter(|at| self.station.is_open(*at as usize))
            .collect();
        match open[..] {
            [] => at,
            _ => self.maker.random.pick(&open),
        }
    }

    /// The maker with this destination, its profile and its own calls.
    fn lent<T>(&mut self, at: u64, make: impl FnOnce(&mut Maker) -> T) -> T {
        let k = at as usize;
        self.maker.profile = self.profile.of[k % self.profile.of.len()];
        self.maker.next_sequence = self.station.next().max(1);
        self.maker.last_refusal = self.own[k].1;
        std::mem::swap(&mut self.maker.engine, self.station.engine(k));
        std::mem::swap(&mut self.maker.calls, &mut self.own[k].0);
        let made = make(&mut self.maker);
        std::mem::swap(&mut self.maker.calls, &mut self.own[k].0);
        std::mem::swap(&mut self.maker.engine, self.station.engine(k));
        made
    }

    fn call_at(&mut self, at: u64, code: u64) -> Call {
        let (mut call, reserved) = self.lent(at, |maker| {
            let view = maker.view();
            let call = build::call(maker, code, view.as_ref());
            (call, view.map_or_else(Vec::new, |v| v.reserved))
        });
        let (random, p) = (&mut self.maker.random, self.profile);
        match code {
            code::OPEN => call.args[NAME_AT] = self.name(at),
            code::ENQUEUE => {
                call.args[0] = 0;
                if random.chance(p.persistent, 10) {
                    call.args[2] = 1;
                }
            }
            code::ACK if random.chance(p.poison, 10) => {
                let kept = ack_bit::FIRST | ack_bit::LAST | ack_bit::CAUSE;
                call.args[3] = u64::from(ack_type::POISON) | call.args[3] & kept;
                if p.absent > 0 && !reserved.is_empty() && random.chance(p.absent, 10) {
                    let at = random.below(reserved.len() as u64) as usize;
                    let numbers: Vec<u64> = reserved[at].1.iter().map(|e| e.seq).collect();
                    call.args[..3].copy_from_slice(&host::consumer_number(&reserved[at].0));
                    call.args[3] |= ack_bit::LAST;
                    call.args[5] = random.pick(&numbers);
                }
            }
            _ => {}
        }
        station::placed(at, &call)
    }

    fn name(&mut self, at: u64) -> u64 {
        let random = &mut self.maker.random;
        // Now and then another one.
        if random.chance(1, 12) {
            return random.below(9);
        }
        match self.profile.naming {
            Naming::Chain => at + 1,
            Naming::Itself => at,
            Naming::Ring(size) => at / size * size + (at % size + 1) % size,
            Naming::One(name) => name,
            Naming::Any if random.chance(5, 6) => random.below(self.profile.places),
            Naming::Any => random.below(9),
        }
    }

    /// Spoils the destination's number, the name, the number that an enqueue shall not carry, or any word. What the memory's limit
    /// will allow (document 02 §14) is left out: a start's first word up to 2^60, and the persistent words 2 and 3.
    fn spoil(&mut self, call: &mut Call) {
        let (place, code) = station::place_of(call);
        let random = &mut self.maker.random;
        match random.below(6) {
            0 => {
                let place = random.pick(&[0, 1, 5, 7, 8, 9, 255, 256, 1 << 32, (1 << 56) - 1]);
                call.code = code + 256 * place;
            }
            1 if code == code::OPEN => {
                call.args[NAME_AT] = random.pick(&[7, 8, 9, 10, 255, 1 << 32, u64::MAX])
            }
            1 if code == code::ENQUEUE => {
                call.args[0] = random.pick(&[1, 2, self.station.next(), 1 << 62, 1 << 63, u64::MAX])
            }
            2 => call.code = random.pick(&[code::START, 16 + 256, 17, 255]) + 256 * (place % 8),
            _ => {
                let mut own = Call { code, ..*call };
                build::spoil(&mut self.maker, &mut own);
                let code = if own.code > 255 { 200 } else { own.code };
                *call = station::placed(place, &Call { code, ..own });
            }
        }
        match station::place_of(call).1 {
            code::START if call.args[0] != 0 => call.args[0] |= 1 << 61,
            code::ENQUEUE if matches!(call.args[2], 2 | 3) => call.args[2] = 4,
            _ => {}
        }
    }
}
