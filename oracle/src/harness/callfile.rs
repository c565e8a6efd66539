//! The call file: blocks of 512 bytes with up to seven calls of 72 bytes, a count and a check.

pub const BLOCK: usize = 512;
pub const CALLS: usize = 7;
const CALL: usize = 72;
const COUNT_AT: usize = 504;
const CHECK_AT: usize = 508;

/// Call codes.
pub mod code {
    pub const OPEN: u64 = 0;
    pub const ENQUEUE: u64 = 1;
    pub const JOIN: u64 = 2;
    pub const LEAVE: u64 = 3;
    pub const ACK: u64 = 4;
    pub const PULL: u64 = 5;
    pub const TIMEOUT: u64 = 6;
    pub const PREFETCH: u64 = 7;
    pub const UNMARK: u64 = 8;
    pub const SWEEP: u64 = 9;
    pub const CLEAR: u64 = 10;
    pub const ADD_PRODUCER: u64 = 11;
    pub const REMOVE_PRODUCER: u64 = 12;
    pub const DUPLICATE: u64 = 13;
    pub const RELEASE_AUDITS: u64 = 14;
    pub const RELEASE: u64 = 15;
    /// Of a station alone (document 02 §1).
    pub const START: u64 = 16;
}

/// Bits of an acknowledgement's type word, above the type byte.
pub mod ack_bit {
    pub const TRANSACTED: u64 = 256;
    pub const FIRST: u64 = 512;
    pub const LAST: u64 = 1024;
    pub const CAUSE: u64 = 2048;
}

/// Bits of a join's flags.
pub mod join_flag {
    pub const NO_LOCAL: u64 = 1;
    pub const BROWSER: u64 = 2;
}

#[derive(Clone, Copy, Debug, PartialEq, Eq)]
pub struct Call {
    pub code: u64,
    pub args: [u64; 8],
}

impl Call {
    /// A call with its first arguments; the others are 0.
    pub fn new(code: u64, first: &[u64]) -> Call {
        let mut args = [0; 8];
        args[..first.len()].copy_from_slice(first);
        Call { code, args }
    }

    fn read(bytes: &[u8]) -> Call {
        let word = |k: usize| {
            let at = 8 * k;
            u64::from_le_bytes(bytes[at..at + 8].try_into().expect("eight bytes"))
        };
        Call {
            code: word(0),
            args: std::array::from_fn(|k| word(k + 1)),
        }
    }

    fn write(&self, bytes: &mut [u8]) {
        bytes[..8].copy_from_slice(&self.code.to_le_bytes());
        for (k, arg) in self.args.iter().enumerate() {
            let at = 8 * (k + 1);
            bytes[at..at + 8].copy_from_slice(&arg.to_le_bytes());
        }
    }
}

/// The sum over bytes 0 to 507 of (position + 1) x byte.
pub fn check(block: &[u8]) -> u32 {
    block[..CHECK_AT]
        .iter()
        .zip(1u32..)
        .map(|(byte, place)| place * u32::from(*byte))
        .sum()
}

fn number(block: &[u8], at: usize) -> u32 {
    u32::from_le_bytes(block[at..at + 4].try_into().expect("four bytes"))
}

/// The calls of one block, or nothing when it is short or its count or check is wrong.
pub fn calls_of(block: &[u8]) -> Option<Vec<Call>> {
    if block.len() != BLOCK {
        return None;
    }
    let count = number(block, COUNT_AT) as usize;
    if !(1..=CALLS).contains(&count) || number(block, CHECK_AT) != check(block) {
        return None;
    }
    Some(block.chunks(CALL).take(count).map(Call::read).collect())
}

/// A block of at most seven calls.
pub fn block_of(calls: &[Call]) -> [u8; BLOCK] {
    let mut block = [0; BLOCK];
    for (call, slot) in calls.iter().zip(block.chunks_mut(CALL)) {
        call.write(slot);
    }
    set_count(&mut block, calls.len() as u32);
    block
}

/// Sets the count, and the check to match.
pub fn set_count(block: &mut [u8; BLOCK], count: u32) {
    block[COUNT_AT..CHECK_AT].copy_from_slice(&count.to_le_bytes());
    let sum = check(block);
    set_check(block, sum);
}

pub fn set_check(block: &mut [u8; BLOCK], sum: u32) {
    block[CHECK_AT..].copy_from_slice(&sum.to_le_bytes());
}

/// The blocks of a list of calls, full ones first.
pub fn blocks_of(calls: &[Call]) -> Vec<[u8; BLOCK]> {
    calls.chunks(CALLS).map(block_of).collect()
}
