//! Child module of the broker: reaches the memory limit's private flag and test.

use std::sync::atomic::Ordering;

use super::Broker;

/// Runs `admit_memory` with the flag and the bytes in use set beforehand. Returns whether
/// the message is admitted and the flag afterwards.
pub fn admit_memory(broker: &Broker, limited: bool, used: u64, size: u64) -> (bool, bool) {
    broker.limited.store(limited, Ordering::Relaxed);
    broker.memory.used.store(used, Ordering::Relaxed);
    let admitted = broker.admit_memory(size);
    (admitted, broker.memory_limited())
}
