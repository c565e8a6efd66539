//! leafcases: calls the broker's leaf functions and prints a case a line.
//!
//! The first word names the function, the rest are decimal numbers: arguments, then results.

use std::io::{self, BufWriter, Write};
use std::sync::Arc;

use destination_oracle::broker::conn::ConnHandle;
use destination_oracle::broker::destination::{probe as dest_probe, Dest, SubSpec};
use destination_oracle::broker::entry::Memory;
use destination_oracle::broker::{probe, Broker};
use destination_oracle::config::Config;
use destination_oracle::harness::host::{self, AckNumbers, EntryNumbers, Id};
use destination_oracle::harness::random::Random;
use destination_oracle::openwire::model::{ack_type, Destination, Message};
use destination_oracle::openwire::types;
use tokio::sync::mpsc;

const CLOCK_MAX: i64 = 1 << 62;
const MEMORY_MAX: u64 = 1 << 60;
const SETTING_MAX: u64 = 1 << 61;

fn main() -> io::Result<()> {
    let mut out = BufWriter::new(io::stdout().lock());
    expired(&mut out)?;
    redelivered(&mut out)?;
    admit_memory(&mut out)?;
    apply_expiry_options(&mut out)?;
    audit(&mut out)?;
    out.flush()
}

// -- entry.rs -----------------------------------------------------------------

fn expired(out: &mut impl Write) -> io::Result<()> {
    let memory = Arc::new(Memory::new(0));
    let mut case = |expiration: i64, now: i64| {
        let numbers = EntryNumbers {
            expiration,
            ..EntryNumbers::default()
        };
        let r = host::entry(numbers, &memory).expired(now);
        writeln!(out, "expired {expiration} {now} {}", u8::from(r))
    };
    let expirations = [
        i64::MIN,
        i64::MIN + 1,
        -CLOCK_MAX,
        -2,
        -1,
        0,
        1,
        2,
        99,
        100,
        101,
        CLOCK_MAX - 1,
        CLOCK_MAX,
        CLOCK_MAX + 1,
        i64::MAX - 1,
        i64::MAX,
    ];
    let clocks = [0, 1, 2, 99, 100, 101, CLOCK_MAX - 1, CLOCK_MAX];
    for e in expirations {
        for n in clocks {
            case(e, n)?;
        }
    }
    let mut random = Random::new(1);
    for _ in 0..160 {
        let now = random.sized(62) as i64;
        case(now + random.between(-1, 1), now)?;
    }
    for _ in 0..160 {
        case(-(random.sized(63) as i64), random.sized(62) as i64)?;
    }
    for _ in 0..80 {
        case(random.word() as i64, random.sized(62) as i64)?;
        let now = random.sized(62) as i64;
        case(random.between(0, now), now)?;
    }
    Ok(())
}

const CONSUMER: Id = [9, 1, 1];

/// A queue with one consumer, for entries that are sent and returned.
struct Queue {
    dest: Dest,
    conn: Arc<ConnHandle>,
    memory: Arc<Memory>,
    // Kept so that sends succeed.
    _sends: mpsc::UnboundedReceiver<destination_oracle::broker::conn::Out>,
}

impl Queue {
    fn new() -> Queue {
        let (tx, rx) = mpsc::unbounded_channel();
        let address = ([127, 0, 0, 1], 0).into();
        Queue {
            dest: Dest::new(Destination::queue("oracle"), None, 0),
            conn: Arc::new(ConnHandle::new(1, address, tx)),
            memory: Arc::new(Memory::new(0)),
            _sends: rx,
        }
    }

    fn send_one(&self, redelivery: i32) {
        let numbers = EntryNumbers {
            sequence: 10,
            redelivery,
            ..EntryNumbers::default()
        };
        self.dest.enqueue(host::entry(numbers, &self.memory), 0);
        let spec = SubSpec {
            id: host::consumer_id(CONSUMER),
            conn: self.conn.clone(),
            prefetch: 10,
            selector: None,
            no_local: false,
            browser: false,
        };
        self.dest.add_sub(spec, 0);
    }

    fn ack(&self, ack_type: u8, transacted: bool) {
        let numbers = AckNumbers {
            id: CONSUMER,
            ack_type,
            first: None,
            last: Some(10),
            cause: false,
        };
        self.dest.ack(&host::ack(numbers), transacted, 0);
    }

    fn leave(&self, last_delivered: i64) {
        let left = self
            .dest
            .remove_sub(&host::consumer_id(CONSUMER), last_delivered, 0);
        assert!(left, "the consumer was present");
    }

    /// Redelivery of the one entry that waits.
    fn waiting(&self) -> i32 {
        let (total, page) = self.dest.page(0, 1);
        assert_eq!(total, 1, "one entry waits");
        page[0].redelivery
    }

    /// Redelivery of the one entry in flight.
    fn inflight(&self) -> i32 {
        let view = dest_probe::view(&self.dest);
        assert_eq!(view.subs[0].inflight.len(), 1, "one entry is in flight");
        view.subs[0].inflight[0].entry.redelivery
    }
}

/// Redelivery after a leave with last delivered -1.
fn by_leave(redelivery: i32) -> i32 {
    let queue = Queue::new();
    queue.send_one(redelivery);
    queue.leave(-1);
    queue.waiting()
}

/// Redelivery after a leave that reserves the entry and the release of it.
fn by_release(redelivery: i32) -> i32 {
    let queue = Queue::new();
    queue.send_one(redelivery);
    queue.ack(ack_type::STANDARD, true);
    queue.leave(0);
    queue.dest.release_reserved(&host::consumer_id(CONSUMER), 0);
    queue.waiting()
}

/// Redelivery after an acknowledgement of type REDELIVERED.
fn by_ack(redelivery: i32) -> i32 {
    let queue = Queue::new();
    queue.send_one(redelivery);
    queue.ack(ack_type::REDELIVERED, false);
    queue.inflight()
}

fn redelivered(out: &mut impl Write) -> io::Result<()> {
    let mut case = |x: i32| {
        let r = by_leave(x);
        assert_eq!(r, by_release(x), "leave and release agree");
        assert_eq!(r, by_ack(x), "leave and acknowledgement agree");
        writeln!(out, "redelivered {x} {r}")
    };
    for x in [i32::MIN, -65_536, -2, 0, 65_536, i32::MAX - 16] {
        for step in 0..=16 {
            case(x + step)?;
        }
    }
    let mut random = Random::new(2);
    for _ in 0..260 {
        case(random.sized(31) as i32)?;
        case(random.word() as i32)?;
    }
    Ok(())
}

// -- mod.rs ---------------------------------------------------------------------

fn admit_memory(out: &mut impl Write) -> io::Result<()> {
    let mut case = |limit: u64, flag: bool, used: u64, size: u64| {
        if limit > MEMORY_MAX || used > MEMORY_MAX || size > MEMORY_MAX {
            return Ok(());
        }
        let broker = Broker::new(Arc::new(Config {
            max_memory_bytes: limit,
            ..Config::default()
        }));
        let (admitted, after) = probe::admit_memory(&broker, flag, used, size);
        let (flag, admitted, after) = (u8::from(flag), u8::from(admitted), u8::from(after));
        writeln!(
            out,
            "admit_memory {limit} {flag} {used} {size} {admitted} {after}"
        )
    };
    let flags = [false, true];
    // Document 01's corner.
    for used in [89, 90] {
        for size in [11, 12] {
            for flag in flags {
                case(100, flag, used, size)?;
            }
        }
    }
    // No limit, the smallest limits, and the largest.
    for limit in [0, 1, 2, 9, 10, 11, 19, 20, MEMORY_MAX - 1, MEMORY_MAX] {
        for used in [0, 1, limit / 10 * 9, limit, MEMORY_MAX] {
            for size in [0, 1, MEMORY_MAX] {
                for flag in flags {
                    case(limit, flag, used, size)?;
                }
            }
        }
    }
    // Around nine tenths of a limit, and around a limit.
    let mut random = Random::new(3);
    for _ in 0..100 {
        let limit = random.sized(60);
        let tenths = limit * 9 / 10;
        let used = tenths.saturating_add_signed(random.between(-2, 2));
        let left = limit.saturating_sub(used);
        let size = left.saturating_add_signed(random.between(-1, 1));
        for flag in flags {
            case(limit, flag, used, size)?;
        }
    }
    for _ in 0..120 {
        let (limit, used, size) = (random.sized(60), random.sized(60), random.sized(60));
        case(limit, random.chance(1, 2), used, size)?;
    }
    Ok(())
}

/// Settings and times of one `apply_expiry_options`.
#[derive(Clone, Copy)]
struct Expiry {
    broker_clock: bool,
    default_ttl: u64,
    ttl_ceiling: u64,
    expiration: i64,
    timestamp: i64,
    now: i64,
}

fn apply_expiry_options(out: &mut impl Write) -> io::Result<()> {
    let mut case = |x: Expiry| {
        let broker = Broker::new(Arc::new(Config {
            use_broker_clock: x.broker_clock,
            default_ttl_ms: x.default_ttl,
            ttl_ceiling_ms: x.ttl_ceiling,
            ..Config::default()
        }));
        let mut msg = Message::new(types::ACTIVEMQ_MESSAGE);
        msg.expiration = x.expiration;
        msg.timestamp = x.timestamp;
        let live = broker.apply_expiry_options(&mut msg, x.now);
        writeln!(
            out,
            "apply_expiry_options {} {} {} {} {} {} {} {} {}",
            u8::from(x.broker_clock),
            x.default_ttl,
            x.ttl_ceiling,
            x.expiration,
            x.timestamp,
            x.now,
            u8::from(live),
            msg.expiration,
            msg.timestamp
        )
    };
    // Document 01's corner, and the sides of each condition.
    for broker_clock in [true, false] {
        for (default_ttl, ttl_ceiling) in [(0, 0), (7, 0), (0, 30), (7, 5), (40, 30)] {
            for (expiration, timestamp) in
                [(50, 60), (60, 50), (0, 60), (0, 0), (150, 0), (-1, 60), (150, -1)]
            {
                case(Expiry {
                    broker_clock,
                    default_ttl,
                    ttl_ceiling,
                    expiration,
                    timestamp,
                    now: 100,
                })?;
            }
        }
    }
    // The ends of the ranges.
    let times = [i64::MIN, -1, 0, 1, CLOCK_MAX];
    for broker_clock in [true, false] {
        for (default_ttl, ttl_ceiling) in [(0, 0), (SETTING_MAX, 0), (0, SETTING_MAX), (SETTING_MAX, 1)] {
            for expiration in times {
                for timestamp in times {
                    case(Expiry {
                        broker_clock,
                        default_ttl,
                        ttl_ceiling,
                        expiration,
                        timestamp,
                        now: CLOCK_MAX,
                    })?;
                }
            }
        }
    }
    let mut random = Random::new(4);
    for round in 0..400 {
        // Near each other in one half, of any size in the other.
        let near = round % 2 == 0;
        let now = if near {
            random.between(0, 100)
        } else {
            random.sized(62) as i64
        };
        let mut time = || match random.below(8) {
            0 => 0,
            1 => -(random.sized(63) as i64),
            _ if near => random.between(0, 200),
            _ => random.sized(62) as i64,
        };
        let (expiration, timestamp) = (time(), time());
        let mut setting = || match random.below(3) {
            0 => 0,
            _ if near => random.below(120),
            _ => random.sized(61),
        };
        let (default_ttl, ttl_ceiling) = (setting(), setting());
        case(Expiry {
            broker_clock: random.chance(1, 2),
            default_ttl,
            ttl_ceiling,
            expiration,
            timestamp,
            now,
        })?;
    }
    Ok(())
}

// -- destination.rs -------------------------------------------------------------

/// Runs one sequence of duplicate tests on a fresh audit.
fn audit_sequence(out: &mut impl Write, numbers: impl IntoIterator<Item = i64>) -> io::Result<()> {
    let dest = Dest::new(Destination::queue("oracle"), None, 0);
    writeln!(out, "audit_new")?;
    for number in numbers {
        let duplicate = dest.is_duplicate(&host::audited_message(CONSUMER, number));
        writeln!(out, "audit {number} {}", u8::from(duplicate))?;
    }
    Ok(())
}

fn audit(out: &mut impl Write) -> io::Result<()> {
    // Document 01's corner: the window fills, 1,024 evicts 0, 0 evicts 1, and so on.
    let after = [1024, 1024, 0, 0, 1024, 2, 1, 1, 2, 3, 1023, 1024, 4, 3, 2];
    audit_sequence(out, (0..1024).chain(after))?;
    // The ends of the range, and zero.
    let ends = [
        0,
        -1,
        1,
        i64::MIN,
        i64::MAX,
        -1,
        0,
        i64::MAX,
        i64::MIN,
        i64::MIN + 1,
        1,
    ];
    audit_sequence(out, ends)?;
    let mut random = Random::new(5);
    // Phases on one audit that go round the window several times: a range a little wider
    // than the window, then rising numbers (through the end of the range) with resends of
    // recent ones and of some at the window's end.
    let mut next = i64::MAX - 800;
    let phases: Vec<i64> = (0..3300)
        .map(|k| match random.below(5) {
            _ if k % 1100 < 400 => random.between(-650, 649),
            0 => next.wrapping_sub(random.between(1, 30)),
            1 => next.wrapping_sub(random.between(1015, 1030)),
            _ => {
                next = next.wrapping_add(1);
                next
            }
        })
        .collect();
    audit_sequence(out, phases)?;
    // Any numbers, with resends of earlier ones from before and after the window's end.
    let mut sent: Vec<i64> = Vec::new();
    for _ in 0..1700 {
        let number = if sent.len() > 1100 && random.chance(1, 3) {
            let back = random.between(1000, 1100) as usize;
            sent[sent.len() - back]
        } else if !sent.is_empty() && random.chance(1, 8) {
            random.pick(&sent)
        } else {
            random.word() as i64
        };
        sent.push(number);
    }
    audit_sequence(out, sent)
}
