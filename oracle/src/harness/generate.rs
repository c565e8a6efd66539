//! Random call files. The calls are run on the broker as they are made, so that most of them
//! name consumers, entries and numbers that are there.

mod build;
mod profiles;
mod stations;

use super::callfile::{self, code, Call, BLOCK};
use super::engine::{refusal, Engine};
use super::random::Random;
use crate::broker::destination::probe::{self, View};
pub use profiles::{names, Profile};
pub use stations::{file as station_file, names as station_names, StationProfile};

/// Makes a call file of a profile: the same for the same seed, profile and number of calls.
pub fn file(seed: u64, profile: &'static Profile, calls: usize) -> Vec<u8> {
    let mut maker = Maker::new(seed, profile);
    while maker.calls.len() < calls {
        maker.step(calls);
    }
    let blocks = maker.blocks();
    if profile.damaged {
        return maker.damage(blocks);
    }
    blocks.concat()
}

/// A call file being made, beside the destination its calls have made.
struct Maker {
    random: Random,
    profile: &'static Profile,
    engine: Engine,
    calls: Vec<Call>,
    last_refusal: u8,
    clock: u64,
    next_sequence: u64,
    /// Sizes have a chance of their own.
    sizes: Random,
    /// Whether sizes below 256 come up, since the latest open.
    small_sizes: bool,
    /// The next number of each audited producer.
    audit_numbers: [i64; build::AUDITED],
}

impl Maker {
    fn new(seed: u64, profile: &'static Profile) -> Maker {
        // Profiles of the same seed shall differ.
        let salt = profile
            .name
            .bytes()
            .fold(0u64, |h, b| h.wrapping_mul(31).wrapping_add(u64::from(b)));
        let mut random = Random::new(seed.wrapping_mul(0x1_0001).wrapping_add(salt));
        let clock = random.below(100);
        let next_sequence = 1 + random.below(20);
        Maker {
            random,
            profile,
            engine: Engine::new(),
            calls: Vec::new(),
            last_refusal: refusal::NONE,
            clock,
            next_sequence,
            sizes: Random::new(seed.wrapping_mul(0x1_0003).wrapping_sub(salt)),
            small_sizes: true,
            audit_numbers: [0; build::AUDITED],
        }
    }

    /// The state, once a destination is open.
    fn view(&self) -> Option<View> {
        self.engine.opened().map(|o| probe::view(&o.dest))
    }

    fn step(&mut self, calls: usize) {
        let mut code = self.next_code();
        // A pair is not cut by the file's end.
        if code == code::UNMARK && !self.profile.halves && self.calls.len() + 1 == calls {
            code = code::SWEEP;
        }
        let view = self.view();
        self.tick();
        let mut call = build::call(self, code, view.as_ref());
        if self.random.chance(self.profile.bad_words, 100) {
            build::spoil(self, &mut call);
        }
        self.last_refusal = self.engine.call(&call).refusal;
        self.calls.push(call);
    }

    fn rows_used(&self) -> usize {
        self.engine.opened().map_or(0, |o| probe::rows_used(&o.dest))
    }

    fn next_code(&mut self) -> u64 {
        let first = self.calls.last().is_some_and(|c| c.code == code::UNMARK);
        if first && !self.profile.halves {
            return code::RELEASE;
        }
        if self.engine.opened().is_none() {
            // A few calls come too early in profiles that spoil words.
            let early = self.profile.bad_words > 0 && self.calls.len() < 5;
            if early && self.random.chance(1, 2) {
                return self.random.below(16);
            }
            return code::OPEN;
        }
        if self.profile.fill {
            let rows = self.rows_used();
            // Up to the last rows quickly; anything when a call has found too few.
            let short = matches!(self.last_refusal, refusal::NO_ROWS | refusal::SHARE);
            if rows < 505 && !short && self.random.chance(9, 10) {
                return self
                    .random
                    .pick(&[code::ENQUEUE, code::ENQUEUE, code::ENQUEUE, code::JOIN]);
            }
        }
        let total = self.profile.weights.iter().map(|(_, w)| w).sum();
        let mut at = self.random.below(total);
        for (code, weight) in self.profile.weights {
            if at < *weight {
                return *code;
            }
            at -= weight;
        }
        unreachable!("the weights add up")
    }

    /// The clock moves, mostly onward.
    fn tick(&mut self) {
        match self.random.below(40) {
            k if k < self.profile.clock_back => {
                self.clock = self.clock.saturating_sub(self.random.below(20));
            }
            k if k == self.profile.clock_back && self.profile.wild => self.clock = self.random.sized(62),
            _ => self.clock += self.random.below(self.profile.clock_step + 1),
        }
        self.clock = self.clock.min(1 << 62);
    }

    /// The calls in blocks, some of them not full.
    fn blocks(&mut self) -> Vec<[u8; BLOCK]> {
        let mut blocks = Vec::new();
        let mut rest = &self.calls[..];
        while !rest.is_empty() {
            let full = !self.random.chance(1, 8);
            let size = if full {
                7
            } else {
                1 + self.random.below(7) as usize
            };
            let (these, after) = rest.split_at(size.min(rest.len()));
            let mut block = callfile::block_of(these);
            // What stands in slots past the count is not read.
            if these.len() < 7 && self.random.chance(1, 2) {
                let slot = 72 * these.len() + self.random.below(72) as usize;
                block[slot] = self.random.word() as u8;
                callfile::set_count(&mut block, these.len() as u32);
            }
            blocks.push(block);
            rest = after;
        }
        blocks
    }

    /// Breaks one block, and goes on after it.
    fn damage(&mut self, mut blocks: Vec<[u8; BLOCK]>) -> Vec<u8> {
        if blocks.is_empty() {
            return vec![0; self.random.below(BLOCK as u64) as usize];
        }
        let at = self.random.below(blocks.len() as u64) as usize;
        let last = blocks.len() - 1;
        let block = &mut blocks[at];
        let bit = 1u8 << self.random.below(8);
        let place = self.random.below(BLOCK as u64) as usize;
        match self.random.below(8) {
            0 => callfile::set_count(block, 0),
            1 => callfile::set_count(block, 8),
            2 => callfile::set_count(block, self.random.word() as u32 | 8),
            3 => {
                let sum = callfile::check(block);
                callfile::set_check(block, sum.wrapping_add(1));
            }
            4 => {
                let sum = callfile::check(block);
                callfile::set_check(block, sum ^ 0x8000_0000);
            }
            5 => block[place] ^= bit,
            6 => *block = [0; BLOCK],
            _ => {
                // The file ends within its last block.
                let mut bytes = blocks.concat();
                bytes.truncate(last * BLOCK + self.random.below(BLOCK as u64) as usize);
                return bytes;
            }
        }
        blocks.concat()
    }
}
