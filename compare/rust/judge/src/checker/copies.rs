//! Copies of a record in which a field was changed, and what document 01 says to them if the record was accepted. What
//! it says is certain because a step is a function of the old state, the instruction and the old eight bytes: any other
//! new state or new bytes are no step, and what earlier numbers look at is left as it was.

use super::{
    record::{rt, StepRecord, ADDRESS, INSTRUCTION, NEW, NEW_EIGHT, OLD, OLD_EIGHT, SPARE, STATE_SPARE},
    Verdict, DIFFERS, FORM, OLD_EXITED, STEP_REFUSED, TOUCH,
};
use crate::{
    coverage::name,
    examples::{Example, Says},
    machine::{CODE, EXITED, HEAP, HI, HINT_LENGTH, KEY, LO, MOST_HINT_ROOM, NEXT_PC, OFFSET, PC, RULES, STATE, STEP},
};
use std::ops::Range;

/// A record with the answer to it, and what was changed in it.
pub struct Entry {
    pub what: String,
    pub record: StepRecord,
    pub verdict: Verdict,
}

pub fn entry(what: impl Into<String>, record: StepRecord, verdict: Verdict) -> Entry {
    Entry { what: what.into(), record, verdict }
}

/// A field of a state: its name, where it begins and its length.
pub type Field = (&'static str, usize, usize);

/// The fields behind the registers. The key shows by its ends that all of it is looked at.
pub const FIELDS: [Field; 13] = [
    ("pc", PC, 8),
    ("next_pc", NEXT_PC, 8),
    ("hi", HI, 8),
    ("lo", LO, 8),
    ("heap", HEAP, 8),
    ("step", STEP, 8),
    ("offset", OFFSET, 8),
    ("hint length", HINT_LENGTH, 8),
    ("key's first byte", KEY, 1),
    ("key's last byte", KEY + 31, 1),
    ("exited", EXITED, 1),
    ("code", CODE, 1),
    ("rules", RULES, 1),
];

/// Another value of a field, of document 01's form: a bit turned, or the greatest hint length.
pub fn other_value(record: &StepRecord, at: usize, field: Field, turn: usize) -> StepRecord {
    let (_, place, length) = field;
    match place {
        HINT_LENGTH => record.with_number(at + place, MOST_HINT_ROOM as u64),
        EXITED | RULES => record.with(at + place, &[record.bytes[at + place] ^ 1]),
        _ => record.with_bit_turned(at + place, length, turn),
    }
}

/// 27: any field of the new state.
pub fn new_state(record: &StepRecord, turn: usize) -> Vec<Entry> {
    let register = |r: usize| entry(format!("new register {r}"), record.with_bit_turned(NEW + 8 * r, 8, turn), DIFFERS);
    let field = |f: Field| entry(format!("new {}", f.0), other_value(record, NEW, f, turn), DIFFERS);
    (0..32).map(register).chain(FIELDS.into_iter().map(field)).collect()
}

/// 22: in either state exited, rules or hint length, or a spare byte.
pub fn form(record: &StepRecord, turn: usize) -> Vec<Entry> {
    let pick = turn / 4 % 3;
    let (byte, spare) = ([2, 0x80, 0xFF][pick], [1, 0x80, 0xFF][pick]);
    // The second is 0 in its low word.
    let length: u64 = [65_537, 1 << 32, u64::MAX][pick];
    let mut copies = Vec::new();
    for (name, at) in [("old", OLD), ("new", NEW)] {
        copies.push(entry(format!("{name} exited above 1"), record.with(at + EXITED, &[byte]), FORM));
        copies.push(entry(format!("{name} rules above 1"), record.with(at + RULES, &[byte]), FORM));
        let record = record.with_number(at + HINT_LENGTH, length);
        copies.push(entry(format!("{name} hint length above 65,536"), record, FORM));
    }
    let spares = (OLD + STATE_SPARE..OLD + STATE).chain(NEW + STATE_SPARE..NEW + STATE).chain(SPARE..ADDRESS);
    copies.extend(spares.map(|at| entry(format!("spare byte {at}"), record.with(at, &[spare]), FORM)));
    copies
}

/// 23: the old state made an exited one.
pub fn exited(record: &StepRecord) -> Vec<Entry> {
    match record.bytes[OLD + EXITED] {
        0 => vec![entry("old state exited", record.with(OLD + EXITED, &[1]), OLD_EXITED)],
        _ => Vec::new(),
    }
}

/// Words that no table of isa.rs has, and BEQL.
const RESERVED: [(&str, u32); 5] = [
    ("reserved opcode", 0xF800_0000),
    ("BEQL", 0x5000_0000),
    ("reserved SPECIAL code", 0x0000_0001),
    ("reserved SPECIAL2 code", 0x7000_0000),
    ("reserved REGIMM code", 0x0402_0000),
];

/// 24: refusal 2 or 3 (or 4, which REGIMM gives before 3) instead of the step.
pub fn refused(record: &StepRecord, turn: usize) -> Vec<Entry> {
    let pc = record.number(OLD + PC);
    let off = (pc & !3) + 1 + turn as u64 % 3;
    let mut copies = Vec::new();
    if off != pc {
        copies.push(entry("old pc off alignment", record.with_number(OLD + PC, off), STEP_REFUSED));
    }
    for (what, word) in RESERVED.into_iter().filter(|(_, word)| *word != record.word()) {
        assert!(name(word).is_err(), "{word:08x} is an instruction");
        copies.push(entry(what, record.with(INSTRUCTION, &word.to_be_bytes()), STEP_REFUSED));
    }
    copies
}

/// 26: another address than the touched one, or touch fields without a touch.
pub fn touch(record: &StepRecord, turn: usize) -> Vec<Entry> {
    match record.touched() {
        Some(address) => other_address(record, address, turn),
        None => touch_made_up(record, turn),
    }
}

fn other_address(record: &StepRecord, address: u64, turn: usize) -> Vec<Entry> {
    let others = [
        ("address, 8 more", address.wrapping_add(8)),
        ("address, high word", address ^ 1 << (32 + turn % 32)),
        ("address, low word", address ^ 1 << (3 + turn % 29)),
        ("address not aligned", address + 1 + turn as u64 % 7),
    ];
    others.into_iter().map(|(what, other)| entry(what, record.with_number(ADDRESS, other), TOUCH)).collect()
}

fn touch_made_up(record: &StepRecord, turn: usize) -> Vec<Entry> {
    let parts = [("address", ADDRESS), ("old eight", OLD_EIGHT), ("new eight", NEW_EIGHT)];
    let made_up = |(name, at)| entry(format!("{name} without a touch"), record.with_bit_turned(at, 8, turn), TOUCH);
    parts.into_iter().map(made_up).collect()
}

/// 26: SC and SCD touch also when they store nothing, so zeros deny a touch at another address than 0.
pub fn touch_denied(record: &StepRecord) -> Vec<Entry> {
    match record.touched() {
        Some(1..) if record.stores_nothing() => {
            vec![entry("touch denied", record.with(ADDRESS, &[0; 24]), TOUCH)]
        }
        _ => Vec::new(),
    }
}

/// 26: an instruction that disagrees with the old bytes holding it. The rt field of a load or store says nothing of
/// its address or of refusals.
pub fn contradiction(record: &StepRecord, turn: usize) -> Vec<Entry> {
    if !record.touches_itself() {
        return Vec::new();
    }
    let at = OLD_EIGHT + of_instruction(record).start;
    let mut copies = vec![entry("old eight against the instruction", record.with_bit_turned(at, 4, turn), TOUCH)];
    if record.call().is_none() {
        let word = record.word() ^ 1 << (16 + turn % 5);
        assert!(rt(word) != rt(record.word()), "another rt");
        let changed = record.with(INSTRUCTION, &word.to_be_bytes());
        copies.push(entry("instruction against the old eight", changed, TOUCH));
    }
    copies
}

/// 27: the new eight bytes, also of a load, which leaves them as they were.
pub fn new_eight(record: &StepRecord, turn: usize) -> Vec<Entry> {
    let changed = || entry("new eight", record.with_bit_turned(NEW_EIGHT, 8, turn), DIFFERS);
    record.touched().map(|_| changed()).into_iter().collect()
}

/// The bytes of the doubleword that a step writes over without reading them; all others it keeps. Nothing for SWR
/// where rules 0 ors.
fn written(record: &StepRecord) -> Option<Range<usize>> {
    let offset = record.given_address()? as usize % 8;
    Some(match record.word() >> 26 {
        _ if record.stores_nothing() => 0..0,
        0x28 => offset..offset + 1,
        0x29 => offset & 6..(offset & 6) + 2,
        0x2B | 0x38 => offset & 4..(offset & 4) + 4,
        0x2A => offset..(offset | 3) + 1,
        0x2E if record.rules() == 0 && (4..=6).contains(&offset) => return None,
        0x2E => offset & 4..offset + 1,
        0x2C => offset..8,
        0x2D => 0..offset + 1,
        // Off alignment, which only rules 0 lets pass, the low bytes stay.
        0x3C | 0x3F => 0..8 - offset,
        // Loads, and writes to 6.
        _ => 0..0,
    })
}

/// The old eight bytes, a bit of one of them: 27 if the step keeps it, since the new eight then differ; still a step if
/// it is written over; and 26 in either case if it belongs to the instruction.
pub fn old_eight(record: &StepRecord, turn: usize) -> Vec<Entry> {
    let of_byte = |written: &Range<usize>, byte: usize| {
        let changed = record.with_bit_turned(OLD_EIGHT + byte, 1, turn);
        if of_instruction(record).contains(&byte) {
            entry("old eight against the instruction", changed, TOUCH)
        } else if written.contains(&byte) {
            entry("old eight, written over", changed, Verdict::Accepted)
        } else {
            entry("old eight, kept", changed, DIFFERS)
        }
    };
    match written(record) {
        Some(written) => (0..8).map(|k| of_byte(&written, (turn + k) % 8)).collect(),
        None => Vec::new(),
    }
}

/// Which of the touched bytes hold the instruction.
fn of_instruction(record: &StepRecord) -> Range<usize> {
    let pc = record.number(OLD + PC) as usize % 8;
    match record.touches_itself() {
        true => pc..pc + 4,
        false => 0..0,
    }
}

/// An example of document 01 under the other rules, in both states: the example itself says what becomes of it.
pub fn other_rules(record: &StepRecord, example: &Example) -> Entry {
    let (here, there) = match record.rules() {
        0 => (example.rules0, example.rules1),
        _ => (example.rules1, example.rules0),
    };
    let verdict = match there {
        Says::Refused(_) => STEP_REFUSED,
        _ if here == there => Verdict::Accepted,
        _ => DIFFERS,
    };
    entry("example under the other rules", record.with_other_rules(), verdict)
}
