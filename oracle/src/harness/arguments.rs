//! Ranges of arguments, and unused words (refusal 3).

use super::callfile::{ack_bit, code, Call};
use super::host::NO_SELECTOR;

pub const CLOCK_MAX: u64 = 1 << 62;
pub const CALL_LIMIT_MAX: u64 = 1 << 40;
pub const ROWS: u64 = 512;
/// A day of milliseconds.
pub const ALLOWANCE_MAX: u64 = 86_400_000;
/// Bytes of an entry.
pub const SIZE_MAX: u64 = (1 << 32) - 1;
pub const SEQUENCE_MAX: u64 = (1 << 63) - 1;

/// What a word may hold.
#[derive(Clone, Copy)]
enum Range {
    /// Any u64 or any i64.
    Any,
    /// From the first to the second number, both included.
    Within(u64, u64),
    /// A two's complement word in the range of i32.
    Int32,
}

impl Range {
    fn holds(self, word: u64) -> bool {
        match self {
            Range::Any => true,
            Range::Within(low, high) => (low..=high).contains(&word),
            Range::Int32 => i32::try_from(word as i64).is_ok(),
        }
    }
}

use Range::{Any, Int32, Within};

const CLOCK: Range = Within(0, CLOCK_MAX);
const FLAG: Range = Within(0, 1);
const UNUSED: Range = Within(0, 0);

/// Ranges of the words a call uses, or nothing for an unknown code.
fn ranges(call: &Call) -> Option<Vec<Range>> {
    Some(match call.code {
        code::OPEN => vec![
            FLAG,
            Within(0, ROWS),
            Within(1, CALL_LIMIT_MAX),
            CLOCK,
            Within(0, ALLOWANCE_MAX),
            Within(0, ROWS),
        ],
        code::ENQUEUE => vec![
            Within(1, SEQUENCE_MAX),
            Any,
            FLAG,
            Any,
            Any,
            Int32,
            CLOCK,
            Within(0, SIZE_MAX),
        ],
        code::JOIN => vec![Any, Any, Any, Int32, Within(0, NO_SELECTOR), Within(0, 3), CLOCK],
        code::LEAVE => vec![Any, Any, Any, Any, CLOCK],
        code::ACK => {
            let word = call.args[3];
            let present = |bit| if word & bit == 0 { UNUSED } else { Any };
            let types = Within(0, 4095);
            vec![
                Any,
                Any,
                Any,
                types,
                present(ack_bit::FIRST),
                present(ack_bit::LAST),
                CLOCK,
            ]
        }
        code::PULL => vec![Any, Any, Any, Any, CLOCK],
        code::TIMEOUT => vec![Any, Any, Any, Any],
        code::PREFETCH => vec![Any, Any, Any, Int32, CLOCK],
        code::UNMARK => vec![Any, Any, Any],
        code::SWEEP => vec![CLOCK, Within(0, ROWS)],
        code::CLEAR => vec![],
        code::ADD_PRODUCER => vec![Any, Any, Any],
        code::REMOVE_PRODUCER => vec![Any, Any, Any, CLOCK],
        code::DUPLICATE => vec![Any, Any, Any, Any],
        code::RELEASE_AUDITS => vec![Any],
        code::RELEASE => vec![Any, Any, Any, CLOCK],
        _ => return None,
    })
}

/// True when the code is known, each number is in its range and each unused word is 0.
pub fn in_range(call: &Call) -> bool {
    let Some(used) = ranges(call) else {
        return false;
    };
    let all = used.into_iter().chain(std::iter::repeat(UNUSED));
    call.args.iter().zip(all).all(|(word, range)| range.holds(*word))
}

/// How many argument words a call of this code uses, or nothing for an unknown code.
pub fn words_used(code: u64) -> Option<usize> {
    ranges(&Call::new(code, &[])).map(|used| used.len())
}

/// Which argument of a call is its clock.
pub fn clock_place(code: u64) -> Option<usize> {
    match code {
        code::OPEN => Some(3),
        code::ENQUEUE | code::JOIN | code::ACK => Some(6),
        code::LEAVE | code::PULL | code::PREFETCH => Some(4),
        code::RELEASE | code::REMOVE_PRODUCER => Some(3),
        code::SWEEP => Some(0),
        _ => None,
    }
}
