//! Document 01's compared domain for rules 0: which cases the Rust is asked about, and why the others are not.

use crate::machine::{Call, Machine, RECORD, RULES};
use std::fmt;

/// Why a case lies outside the compared domain.
#[derive(Clone, Copy, Debug, Eq, Ord, PartialEq, PartialOrd)]
pub enum Why {
    Rules,
    ZeroKey,
    Refusal1,
    PastTheEnd,
    Refusal8,
    Refusal9,
    LongOutput,
    Fetching,
    PanicLowWord,
    PanicLeast,
    PanicOffset,
    PanicHint,
}

impl fmt::Display for Why {
    fn fmt(&self, f: &mut fmt::Formatter<'_>) -> fmt::Result {
        f.write_str(match self {
            Why::Rules => "rules number not 0",
            Why::ZeroKey => "key all zero",
            Why::Refusal1 => "refusal 1",
            Why::PastTheEnd => "memory range past 2^64",
            Why::Refusal8 => "refusal 8",
            Why::Refusal9 => "refusal 9",
            Why::LongOutput => "8,192 bytes or more written at once",
            Why::Fetching => "error in fetching input (refusal 10)",
            Why::PanicLowWord => "panic: divisor with low word zero (refusal 5)",
            Why::PanicLeast => "panic: least number by -1 (refusal 6)",
            Why::PanicOffset => "panic: input offset past the end (refusal 11)",
            Why::PanicHint => "panic: hint shorter than announced (refusal 12)",
        })
    }
}

impl Why {
    /// Document 01's refusal where it has one: the Rust can't vouch for it.
    pub fn refusal(self) -> Option<u32> {
        match self {
            Why::Rules | Why::ZeroKey | Why::PastTheEnd | Why::LongOutput => None,
            Why::Refusal1 => Some(1),
            Why::PanicLowWord => Some(5),
            Why::PanicLeast => Some(6),
            Why::Refusal8 => Some(8),
            Why::Refusal9 => Some(9),
            Why::Fetching => Some(10),
            Why::PanicOffset => Some(11),
            Why::PanicHint => Some(12),
        }
    }
}

/// What the machine before the step shows. The rest of the domain is seen while the Rust runs.
pub fn outside(m: &Machine) -> Option<Why> {
    if m.state[RULES] != 0 {
        return Some(Why::Rules);
    }
    if m.used > m.pages.len() / RECORD || m.get(crate::machine::HINT_LENGTH) > m.hint_room() as u64 {
        return Some(Why::Refusal1);
    }
    if m.key().iter().all(|byte| *byte == 0) {
        return Some(Why::ZeroKey);
    }
    m.call().and_then(|call| outside_write(m, call))
}

/// Writes to 1, 2 and 4 reach over more than eight bytes. They are bounded before the Rust sees them: it would set
/// aside room for all of a2 on descriptor 4, and hand full buffers of 8,192 bytes on to the real output.
fn outside_write(m: &Machine, call: Call) -> Option<Why> {
    if call.number != 5001 || ![1, 2, 4].contains(&call.descriptor) {
        return None;
    }
    let (held, room) = match call.descriptor {
        4 => (m.get(crate::machine::HINT_LENGTH), m.hint_room()),
        _ => (0, m.output.len()),
    };
    if call.a1 as u128 + call.a2 as u128 > 1 << 64 {
        Some(Why::PastTheEnd)
    } else if held as u128 + call.a2 as u128 > room as u128 {
        Some(Why::Refusal9)
    } else if call.descriptor != 4 && call.a2 >= 8192 {
        Some(Why::LongOutput)
    } else {
        None
    }
}

/// The condition under which the Rust is known to panic, or nothing if it should not have.
pub fn why_panicked(m: &Machine) -> Option<Why> {
    if let Some(call) = m.call() {
        return match (call.number, call.descriptor) {
            (5000, 5) => Some(Why::PanicOffset),
            (5001, 4) => Some(Why::PanicHint),
            _ => None,
        };
    }
    let word = m.instruction()?;
    let rt = m.reg(word >> 16 & 31);
    match (word >> 26, word & 0x3F) {
        (0, 0x1A | 0x1B) if rt as u32 == 0 => Some(Why::PanicLowWord),
        (0, 0x1A) if rt as u32 == u32::MAX => Some(Why::PanicLeast),
        (0, 0x1E) if rt == u64::MAX => Some(Why::PanicLeast),
        _ => None,
    }
}
