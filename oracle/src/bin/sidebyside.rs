//! sidebyside: runs the same calls through the broker's Rust and through the proved engine's library,
//! and compares refusal, answer, events and the whole state after each call.
//!
//! sidebyside corners                               document 01's corners
//! sidebyside FIRST_SEED LAST_SEED CALLS [PROFILE..]   random files of each profile, or of the named ones
//! sidebyside FILE..                                call files
//! sidebyside --spoil ..                            also changes words of the library's buffers, which
//!                                                  the comparison has to notice

use std::env;
use std::fs;
use std::process::ExitCode;

use destination_oracle::harness::arguments;
use destination_oracle::harness::callfile::{self, ack_bit, code, Call, BLOCK};
use destination_oracle::harness::corners;
use destination_oracle::harness::engine::refusal;
use destination_oracle::harness::generate::{self, Profile};
use destination_oracle::harness::library::{CallWords, Lent, WINDOW};
use destination_oracle::harness::random::Random;
use destination_oracle::harness::sides::{self, Both, Sides};
use destination_oracle::harness::spoil::Spoiling;
use destination_oracle::harness::text::{self, Script};
use destination_oracle::harness::whole::Whole;
use destination_oracle::openwire::model::ack_type;

/// How many calls lie between two states that are spoilt.
const SPOIL_EVERY: u64 = 41;

const USAGE: &str = "usage: sidebyside [--spoil] corners | FIRST_SEED LAST_SEED CALLS [PROFILE..] | FILE..";

fn main() -> ExitCode {
    let mut arguments: Vec<String> = env::args().skip(1).collect();
    let spoil = arguments.first().is_some_and(|a| a == "--spoil");
    if spoil {
        arguments.remove(0);
    }
    let mut run = Run {
        spoiling: spoil.then(Spoiling::default),
        random: Random::new(1),
        calls: 0,
        files: 0,
        different: 0,
        codes: [[0; 2]; 17],
        refusals: [0; 15],
        suffices: 0,
        halves: [0; 3],
        surplus: [0; 6],
        texts: 0,
        outlooks: [0; 5],
        seen: Vec::new(),
    };
    match run.all(&arguments) {
        Ok(()) => run.report(),
        Err(e) => {
            eprintln!("sidebyside: {e}");
            ExitCode::from(64)
        }
    }
}

struct Run {
    spoiling: Option<Spoiling>,
    random: Random,
    calls: u64,
    files: u64,
    different: u64,
    /// By code, 16 being any other: accepted, refused.
    codes: [[u64; 2]; 17],
    refusals: [u64; 15],
    /// Enqueues below share 512 that never get 5, as shares suffice.
    suffices: u64,
    /// Releases in two halves by the broker's one call, and marks that the harness cleared or put back.
    halves: [u64; 3],
    /// Enqueues that bring a topic's list over its limit, by what has expired.
    surplus: [u64; 6],
    /// Numbers of bytes held in the corners' texts.
    texts: u64,
    /// Outlooks: asked, with sure ones, with perhaps, with several lines; sweeps tried.
    outlooks: [u64; 5],
    /// Conditions, and after how many calls they held.
    seen: Vec<(&'static str, u64)>,
}

impl Run {
    fn all(&mut self, arguments: &[String]) -> Result<(), String> {
        let numbers: Vec<u64> = arguments.iter().map_while(|a| a.parse().ok()).collect();
        match (arguments, &numbers[..]) {
            ([], _) => Err(USAGE.to_string()),
            ([word], _) if word == "corners" => {
                for corner in corners::all(false) {
                    let script = corner.script()?;
                    self.file(&format!("corner {}", corner.name), &script.file);
                    self.corner_bytes(corner.name, &script);
                }
                Ok(())
            }
            (_, [first, last, calls]) => self.seeds(*first, *last, *calls as usize, &arguments[3..]),
            (files, _) => {
                for name in files {
                    let bytes = fs::read(name).map_err(|e| format!("{name}: {e}"))?;
                    self.file(name, &bytes);
                }
                Ok(())
            }
        }
    }

    /// The bytes held that a corner's text gives, of the library.
    fn corner_bytes(&mut self, name: &str, script: &Script) {
        let mut lent = Lent::new();
        let calls = script.file.chunks(BLOCK).map_while(callfile::calls_of).flatten();
        let mut wanted = script.bytes.iter().peekable();
        for (index, call) in calls.enumerate() {
            lent.call(CallWords::from(&call));
            while let Some((_, bytes)) = wanted.next_if(|(after, _)| *after == index + 1) {
                let asked = lent.bytes_held();
                self.texts += 1;
                if (asked.refusal, asked.answer) != (0, *bytes) {
                    self.different += 1;
                    println!(
                        "corner {name}, call {index}: {bytes} bytes by the text, {asked:?} by the library"
                    );
                }
            }
        }
    }

    fn seeds(&mut self, first: u64, last: u64, calls: usize, named: &[String]) -> Result<(), String> {
        let names: Vec<&str> = if named.is_empty() {
            generate::names().collect()
        } else {
            named.iter().map(String::as_str).collect()
        };
        for name in names {
            let profile = Profile::find(name).ok_or(format!("no profile is named {name}"))?;
            let (before, different) = (self.calls, self.different);
            for seed in first..=last {
                let bytes = generate::file(seed, profile, calls);
                self.file(&format!("gen {seed} {name} {calls}"), &bytes);
            }
            println!(
                "{name}: seeds {first} to {last}, {} calls, {} files different",
                self.calls - before,
                self.different - different
            );
        }
        Ok(())
    }

    fn file(&mut self, name: &str, bytes: &[u8]) {
        self.files += 1;
        let calls: Vec<Call> = bytes
            .chunks(BLOCK)
            .map_while(callfile::calls_of)
            .flatten()
            .collect();
        if let Some(what) = sides::batches_differ(&calls, &mut self.random) {
            self.different += 1;
            println!("{name}: {what} differs");
            return;
        }
        let mut sides = Sides::default();
        for (index, call) in calls.iter().enumerate() {
            self.suffices += u64::from(call.code == code::ENQUEUE && sides.suffices(call));
            let both = sides.call(call);
            let mut what = both.difference(both.outcome, both.bytes, &sides.lent);
            if what.is_none() {
                self.look(call, &both, &sides);
                what = sides.between(call);
            }
            if let Some(what) = what {
                self.different += 1;
                println!("{name}, call {index} ({}): {what} differs", text::line(call));
                println!("{}", sides::shrink(&calls[..=index]));
                return;
            }
        }
        for (sum, more) in self.halves.iter_mut().zip(sides.halves()) {
            *sum += more;
        }
        let o = sides.outlooks;
        let outlooks = [o.asked, o.sure, o.perhaps, o.listed, o.sweeps];
        for (sum, more) in self.outlooks.iter_mut().zip(outlooks) {
            *sum += more;
        }
        for (sum, more) in self.surplus.iter_mut().zip(sides.surplus()) {
            *sum += more;
        }
    }

    /// Counts a call, and spoils what it has left if that is asked.
    fn look(&mut self, call: &Call, both: &Both, sides: &Sides) {
        self.count(call, both);
        if self.calls.is_multiple_of(SPOIL_EVERY) {
            if let Some(spoiling) = &mut self.spoiling {
                spoiling.all(both, &sides.lent, &mut self.random);
            }
        }
    }

    fn count(&mut self, call: &Call, both: &Both) {
        self.calls += 1;
        let refused = both.reply.refusal != refusal::NONE;
        self.codes[call.code.min(16) as usize][usize::from(refused)] += 1;
        self.refusals[usize::from(both.reply.refusal)] += 1;
        for (name, holds) in conditions(call, both) {
            match self.seen.iter_mut().find(|(seen, _)| *seen == name) {
                Some((_, times)) => *times += u64::from(holds),
                None => self.seen.push((name, u64::from(holds))),
            }
        }
    }

    fn report(&self) -> ExitCode {
        println!("code accepted refused");
        for (code, [accepted, refused]) in self.codes.iter().enumerate() {
            match code {
                16 => println!("other {accepted} {refused}"),
                _ => println!("{code} {accepted} {refused}"),
            }
        }
        let refusals: Vec<String> = self.refusals.iter().map(u64::to_string).collect();
        println!(
            "refusals 0 to 9: {}; 14: {}",
            refusals[..10].join(" "),
            refusals[14]
        );
        println!(
            "enqueues below share 512 for which shares suffice: {}",
            self.suffices
        );
        let [both, first, second] = self.halves;
        println!("releases, both halves: {both}");
        println!("halves alone, of a consumer with marks: {first} first, {second} second");
        let [over, expired, several, new, others, discards] = self.surplus;
        println!("enqueues that bring a topic's list over its limit: {over}");
        println!(
            "with something expired in such a list: {expired} (several waiting copies: {several}, the new one: {new}, \
             beside lists within the limit: {others}, beside discards: {discards})"
        );
        println!("bytes held in texts: {}", self.texts);
        let [asked, sure, perhaps, listed, sweeps] = self.outlooks;
        println!("outlooks: {asked} (with sure ones: {sure}, with perhaps: {perhaps}, with several lines: {listed}; sweeps tried: {sweeps})");
        for (name, times) in &self.seen {
            println!("{name}: {times}");
        }
        let mut good = self.different == 0;
        if let Some(spoiling) = &self.spoiling {
            let (lines, noticed) = spoiling.report();
            print!("{lines}");
            good &= noticed;
        }
        println!(
            "{} files, {} calls, {} files different",
            self.files, self.calls, self.different
        );
        ExitCode::from(u8::from(!good))
    }
}

/// What is worth having met, with how it stands after this call.
fn conditions(call: &Call, both: &Both) -> Vec<(&'static str, bool)> {
    let Some(whole) = &both.whole else {
        return Vec::new();
    };
    let accepted = both.reply.refusal == refusal::NONE;
    let answer = both.reply.answer;
    let held = both.held.expect("an opened destination holds bytes");
    let marked = whole.subs.iter().flat_map(|s| &s.inflight).any(|i| i.tx);
    vec![
        ("states with reserved rows", !whole.reserved.is_empty()),
        ("states with rows marked tx", marked),
        (
            "states with a snapshot",
            whole.subs.iter().any(|s| !s.snapshot.is_empty()),
        ),
        ("states with 505 rows or more", whole.rows() >= 505),
        ("states with 512 rows", whole.rows() == 512),
        ("states with 32 consumers", whole.subs.len() == 32),
        ("states with 32 producers", whole.producers.len() == 32),
        ("states with 8 audits", whole.audits.len() == 8),
        (
            "states with a full window",
            whole.audits.iter().any(|(_, list)| list.len() == WINDOW),
        ),
        (
            "sweeps that stop at their maximum",
            accepted && call.code == code::SWEEP && answer == call.args[1] && answer > 0,
        ),
        (
            "clears of entries",
            accepted && call.code == code::CLEAR && answer > 0,
        ),
        (
            "leaves of a consumer",
            accepted && call.code == code::LEAVE && answer == 1,
        ),
        ("duplicates", call.code == code::DUPLICATE && answer == 1),
        (
            "calls with dead letters",
            both.reply.events.iter().any(|e| e.to_string().starts_with('x')),
        ),
        ("calls with 10 events or more", both.reply.events.len() >= 10),
        (
            "transacted INDIVIDUAL of a consumer",
            accepted && single(call, whole).is_some(),
        ),
        (
            "the same, where the first would mark more than the last",
            accepted && single(call, whole).is_some_and(|more| more),
        ),
        ("calls with an allowance", accepted && whole.allowance > 0),
        ("calls with a share below 512", accepted && whole.share < 512),
        (
            "states with entries, bytes held by the broker's figure",
            held.entries > 0 && held.small == 0,
        ),
        (
            "states with a size below 256, bytes held by the second reading",
            held.small > 0,
        ),
        ("states with copies of one entry", whole.rows() > held.entries),
        ("states with 2^32 bytes or more", held.bytes() >> 32 > 0),
        (
            "calls at a clock below the allowance",
            accepted && clock_of(call).is_some_and(|clock| clock < whole.allowance),
        ),
        (
            "calls that leave an entry that only the allowance keeps",
            accepted && clock_of(call).is_some_and(|clock| kept(whole, clock)),
        ),
    ]
}

fn clock_of(call: &Call) -> Option<u64> {
    arguments::clock_place(call.code).map(|place| call.args[place])
}

/// Whether something waits whose expiration is at most the clock, and above the clock less the allowance.
fn kept(whole: &Whole, clock: u64) -> bool {
    let lists = whole.subs.iter().flat_map(|s| [&s.tpending, &s.snapshot]);
    let mut waiting = lists.chain([&whole.waiting]).flatten();
    let reduced = clock.saturating_sub(whole.allowance) as i64;
    waiting.any(|e| e.expiration > reduced && e.expiration <= clock as i64)
}

/// Of a transacted INDIVIDUAL of a consumer that is there: whether its range, first to last, is more than its last.
fn single(call: &Call, whole: &Whole) -> Option<bool> {
    let [_, _, _, word, first, last, ..] = call.args;
    let kind = u64::from(ack_type::INDIVIDUAL) | ack_bit::TRANSACTED;
    if call.code != code::ACK || word & (255 | ack_bit::TRANSACTED) != kind {
        return None;
    }
    let sub = whole.subs.iter().find(|s| s.id[..] == call.args[..3])?;
    let number = |bit: u64, sequence: u64| {
        let found = sub.inflight.iter().find(|i| i.entry.sequence == sequence);
        found.filter(|_| word & bit != 0).map(|i| i.dseq)
    };
    let from = number(ack_bit::FIRST, first).unwrap_or(0);
    let to = number(ack_bit::LAST, last).unwrap_or(0);
    Some(sub.inflight.iter().any(|i| (from..to).contains(&i.dseq)))
}
