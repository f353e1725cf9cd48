//! Why a record in which one bit was changed can still be that of a step.

use crate::{
    cases::loads::{LOADS, STORES},
    checker::record::{is_branch, is_jump, rd, rs, rt, StepRecord, INSTRUCTION, NEW, NEW_EIGHT, OLD, OLD_EIGHT},
    coverage::name,
    encode::{REGIMM, SPECIAL, SPECIAL2},
    machine::{CODE, HI, KEY, LO, OFFSET, PC},
};

#[derive(Clone, Copy, Debug, Eq, Ord, PartialEq, PartialOrd)]
pub enum Reason {
    Pc,
    HiLo,
    OfCalls,
    Stored,
    Pushed,
    Unread,
    Unseen,
    SameName,
    OtherName,
}

impl Reason {
    pub const ALL: [Reason; 9] = [
        Reason::Pc,
        Reason::HiLo,
        Reason::OfCalls,
        Reason::Stored,
        Reason::Pushed,
        Reason::Unread,
        Reason::Unseen,
        Reason::SameName,
        Reason::OtherName,
    ];

    pub fn text(self) -> &'static str {
        match self {
            Reason::Pc => "old pc, which is read only by jumps, branches and the exit call",
            Reason::HiLo => "old hi or lo, which the instruction writes over",
            Reason::OfCalls => "old input offset, front of the key, or exit code, which the call writes over",
            Reason::Stored => "old byte that the store writes over",
            Reason::Pushed => "old bit before what SWR stores, to which it ors a 1 under rules 0",
            Reason::Unread => "old register that is written and is no operand",
            Reason::Unseen => "old register that is operand and result, by a bit that the result doesn't show",
            Reason::SameName => "the word: the same instruction, by a field that it ignores or an operand as good",
            Reason::OtherName => "the word: another instruction that does the same to this state",
        }
    }
}

/// The reason for a changed bit of this byte, or none: then the changed record must be refused.
pub fn reason(record: &StepRecord, changed: &StepRecord, byte: usize) -> Option<Reason> {
    let within = |start: usize, length: usize| (start..start + length).contains(&byte);
    let when = |holds: bool, reason: Reason| holds.then_some(reason);
    if within(OLD, PC) {
        register(record, byte as u32 / 8)
    } else if within(PC, 8) {
        when(!leads(record.word()) && !record.exits(), Reason::Pc)
    } else if within(HI, 8) {
        when(matches!(record.special(), Some(0x11 | 0x18..=0x1F)), Reason::HiLo)
    } else if within(LO, 8) {
        when(matches!(record.special(), Some(0x13 | 0x18..=0x1F)), Reason::HiLo)
    } else if within(OFFSET, 8) {
        when(record.key_bytes().is_some(), Reason::OfCalls)
    } else if within(KEY, 32) {
        when(byte - KEY < record.key_bytes().unwrap_or(0) as usize, Reason::OfCalls)
    } else if within(CODE, 1) {
        when(record.exits(), Reason::OfCalls)
    } else if within(INSTRUCTION, 4) {
        let same = name(record.word()) == name(changed.word());
        Some(if same { Reason::SameName } else { Reason::OtherName })
    } else if within(OLD_EIGHT, 8) {
        let at = byte - OLD_EIGHT;
        let is_pushed = pushed(record)[at] & (record.bytes[byte] ^ changed.bytes[byte]) != 0;
        when(stored(record).contains(&at), Reason::Stored).or(when(is_pushed, Reason::Pushed))
    } else {
        None
    }
}

fn leads(word: u32) -> bool {
    is_branch(word) || is_jump(word)
}

fn register(record: &StepRecord, number: u32) -> Option<Reason> {
    if !written(record).contains(&number) || number == 0 {
        None
    } else if operands(record).contains(&number) {
        Some(Reason::Unseen)
    } else {
        Some(Reason::Unread)
    }
}

/// The registers that a step writes. Under rules 0 also rd of what writes hi and lo.
fn written(record: &StepRecord) -> Vec<u32> {
    let word = record.word();
    match (word >> 26, word & 0x3F) {
        (SPECIAL, 0x08) => vec![],
        (SPECIAL, 0x0C) if record.exits() => vec![],
        (SPECIAL, 0x0C) => vec![2, 7],
        (SPECIAL, 0x0F | 0x11 | 0x13 | 0x18..=0x1F) if record.rules() != 0 => vec![],
        (SPECIAL | SPECIAL2, _) => vec![rd(word)],
        (REGIMM, _) if rt(word) >= 0x10 => vec![31],
        (0x03, _) => vec![31],
        (0x08..=0x0F | 0x18 | 0x19 | 0x38 | 0x3C, _) => vec![rt(word)],
        (opcode, _) if LOADS.contains(&opcode) => vec![rt(word)],
        _ => vec![],
    }
}

/// The registers that an instruction names as operands, whatever it makes of them.
fn operands(record: &StepRecord) -> Vec<u32> {
    let word = record.word();
    match (word >> 26, word & 0x3F) {
        (SPECIAL, 0x0C) => vec![2, 4, 5, 6],
        // MOVZ and MOVN keep rd unless they move.
        (SPECIAL, 0x0A | 0x0B) => vec![rs(word), rt(word), rd(word)],
        (SPECIAL | SPECIAL2 | 0x04 | 0x05, _) => vec![rs(word), rt(word)],
        // LDL, LDR, LWL and LWR keep a part of rt.
        (0x1A | 0x1B | 0x22 | 0x26, _) => vec![rs(word), rt(word)],
        (opcode, _) if STORES.contains(&opcode) => vec![rs(word), rt(word)],
        _ => vec![rs(word)],
    }
}

/// Which of the eight bytes a store writes over. The programs store aligned where the manual wants it.
fn stored(record: &StepRecord) -> std::ops::Range<usize> {
    let off = record.given_address().unwrap_or(0) as usize % 8;
    match record.word() >> 26 {
        _ if record.stores_nothing() => 0..0,
        0x28 => off..off + 1,
        0x29 => off..off + 2,
        0x2B | 0x38 => off..off + 4,
        0x3C | 0x3F => 0..8,
        0x2A => off..(off | 3) + 1,
        0x2E => off & 4..off + 1,
        0x2C => off..8,
        0x2D => 0..off + 1,
        _ => 0..0,
    }
}

/// The bits that SWR at offsets 4 to 6 ors into the upper word under rules 0: those that are pushed out of rt's low one.
fn pushed(record: &StepRecord) -> [u8; 8] {
    let (word, off) = (record.word(), record.given_address().unwrap_or(0) % 8);
    match (word >> 26, off, record.rules()) {
        (0x2E, 4..=6, 0) => ((record.reg(rt(word)) & 0xFFFF_FFFF) << (24 - 8 * (off - 4)) & !0xFFFF_FFFF).to_be_bytes(),
        _ => [0; 8],
    }
}

/// Where no change of a bit can be one: a step has one outcome.
pub fn is_outcome(byte: usize) -> bool {
    (NEW..INSTRUCTION).contains(&byte) || byte >= NEW_EIGHT
}
