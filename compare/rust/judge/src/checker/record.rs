//! Document 01's step record: where its fields stand, how a step becomes one, and what its instruction touches.

use crate::{
    cases::loads::{LOADS, STORES},
    encode::{signed, SPECIAL},
    machine::{Call, Machine, EXITED, HINT_LENGTH, MOST_HINT_ROOM, PC, RULES, STATE},
};

/// Length of a record, and where its parts begin.
pub const STEP_RECORD: usize = 752;
pub const OLD: usize = 0;
pub const NEW: usize = 360;
pub const INSTRUCTION: usize = 720;
pub const SPARE: usize = 724;
pub const ADDRESS: usize = 728;
pub const OLD_EIGHT: usize = 736;
pub const NEW_EIGHT: usize = 744;
/// Where the five spare bytes of a state begin.
pub const STATE_SPARE: usize = 355;

#[derive(Clone, Debug, Eq, Ord, PartialEq, PartialOrd)]
pub struct StepRecord {
    pub bytes: [u8; STEP_RECORD],
}

/// SC and SCD, which touch also when they store nothing.
pub fn is_conditional(word: u32) -> bool {
    matches!(word >> 26, 0x38 | 0x3C)
}

pub fn is_load_or_store(word: u32) -> bool {
    LOADS.contains(&(word >> 26)) || STORES.contains(&(word >> 26))
}

pub fn is_branch(word: u32) -> bool {
    matches!(word >> 26, 0x01 | 0x04..=0x07)
}

pub fn is_jump(word: u32) -> bool {
    matches!((word >> 26, word & 0x3F), (0x02 | 0x03, _) | (SPECIAL, 0x08 | 0x09))
}

pub fn rs(word: u32) -> u32 {
    word >> 21 & 31
}

pub fn rt(word: u32) -> u32 {
    word >> 16 & 31
}

pub fn rd(word: u32) -> u32 {
    word >> 11 & 31
}

/// The eight bytes at an aligned address.
fn eight(m: &Machine, address: u64) -> [u8; 8] {
    std::array::from_fn(|i| m.byte(address + i as u64))
}

impl StepRecord {
    pub const ZERO: StepRecord = StepRecord { bytes: [0; STEP_RECORD] };

    /// The record of a step, of which the machines before and after are all that is looked at.
    pub fn of(before: &Machine, after: &Machine) -> Self {
        let mut record = Self::ZERO;
        record.put(OLD, &before.state);
        record.put(NEW, &after.state);
        record.put(INSTRUCTION, &before.word(before.get(PC)).to_be_bytes());
        if let Some(address) = record.touched() {
            record.put(ADDRESS, &address.to_be_bytes());
            record.put(OLD_EIGHT, &eight(before, address));
            record.put(NEW_EIGHT, &eight(after, address));
        }
        record
    }

    fn put(&mut self, at: usize, bytes: &[u8]) {
        self.bytes[at..at + bytes.len()].copy_from_slice(bytes);
    }

    /// A copy with other bytes at a place; the same bytes would be no change.
    pub fn with(&self, at: usize, bytes: &[u8]) -> Self {
        let mut copy = self.clone();
        copy.put(at, bytes);
        assert!(copy != *self, "a change at byte {at} that changes nothing");
        copy
    }

    pub fn with_number(&self, at: usize, number: u64) -> Self {
        self.with(at, &number.to_be_bytes())
    }

    /// A copy with one bit turned; which one of a field of this length changes from turn to turn.
    pub fn with_bit_turned(&self, at: usize, length: usize, turn: usize) -> Self {
        let at = at + turn % length;
        self.with(at, &[self.bytes[at] ^ 1 << (turn / 8 % 8)])
    }

    /// A copy under the other rules, in both states.
    pub fn with_other_rules(&self) -> Self {
        let rules = [self.rules() ^ 1];
        self.with(OLD + RULES, &rules).with(NEW + RULES, &rules)
    }

    pub fn number(&self, at: usize) -> u64 {
        u64::from_be_bytes(self.bytes[at..at + 8].try_into().unwrap())
    }

    pub fn word(&self) -> u32 {
        u32::from_be_bytes(self.bytes[INSTRUCTION..SPARE].try_into().unwrap())
    }

    /// A register of the old state.
    pub fn reg(&self, number: u32) -> u64 {
        self.number(OLD + 8 * number as usize)
    }

    pub fn rules(&self) -> u8 {
        self.bytes[OLD + RULES]
    }

    /// The funct field of a SPECIAL instruction.
    pub fn special(&self) -> Option<u32> {
        let word = self.word();
        (word >> 26 == SPECIAL).then_some(word & 0x3F)
    }

    pub fn call(&self) -> Option<Call> {
        let (number, descriptor) = (self.reg(2) as u32, self.reg(4) as u32);
        (self.special()? == 0x0C).then(|| Call { number, descriptor, a1: self.reg(5), a2: self.reg(6) })
    }

    pub fn is_wide(&self) -> bool {
        let call = self.call().map(|call| (call.number, call.descriptor));
        matches!(call, Some((5000, 5) | (5001, 1 | 2 | 4)))
    }

    /// How many bytes a write to 6 shifts into the key.
    pub fn key_bytes(&self) -> Option<u64> {
        let call = self.call().filter(|call| (call.number, call.descriptor) == (5001, 6))?;
        Some(call.a2.min(8 - call.a1 % 8))
    }

    pub fn exits(&self) -> bool {
        self.call().map_or(false, |call| call.number == 5205)
    }

    /// The address that a load, a store or a write to 6 is given, aligned or not.
    pub fn given_address(&self) -> Option<u64> {
        let word = self.word();
        if is_load_or_store(word) {
            Some(self.reg(rs(word)).wrapping_add(signed(word)))
        } else {
            self.key_bytes().map(|_| self.reg(5))
        }
    }

    /// The aligned address of the eight bytes that are touched.
    pub fn touched(&self) -> Option<u64> {
        self.given_address().map(|address| address & !7)
    }

    /// Whether the eight bytes that are touched hold the instruction.
    pub fn touches_itself(&self) -> bool {
        self.touched() == Some(self.number(OLD + PC) & !7)
    }

    /// Under rules 0, SC and SCD with the rt field 0.
    pub fn stores_nothing(&self) -> bool {
        is_conditional(self.word()) && rt(self.word()) == 0 && self.rules() == 0
    }

    /// Whether 22 leaves the record alone.
    pub fn is_of_form(&self) -> bool {
        let state = |at: usize| {
            self.bytes[at + EXITED] <= 1
                && self.bytes[at + RULES] <= 1
                && self.number(at + HINT_LENGTH) <= MOST_HINT_ROOM as u64
                && self.bytes[at + STATE_SPARE..at + STATE] == [0; 5]
        };
        state(OLD) && state(NEW) && self.bytes[SPARE..ADDRESS] == [0; 4]
    }
}
