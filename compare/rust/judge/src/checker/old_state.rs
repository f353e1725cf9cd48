//! Copies with another old state. A step keeps what it doesn't write, so a kept field that is changed only before is no
//! step; what is written over unread may be anything; and some fields decide refusals, wide steps and the address.

use super::{
    copies::{entry, other_value, Entry, Field, FIELDS},
    record::{is_branch, is_jump, is_load_or_store, rd, rs, rt, StepRecord, NEW, OLD, OLD_EIGHT},
    Verdict, DIFFERS, STEP_REFUSED, TOUCH, WIDE,
};
use crate::{
    cases::loads::alignment,
    machine::{CODE, EXITED, HI, HINT_LENGTH, KEY, LO, MOST_HINT_ROOM, NEXT_PC, OFFSET, PC, RULES},
};

pub fn old_state(record: &StepRecord, turn: usize) -> Vec<Entry> {
    let mut copies = fields(record, turn);
    copies.push(next_pc(record, turn));
    copies.push(rules(record));
    copies.push(bystander(record, turn));
    copies.extend(both(record));
    copies.extend(moved_pc(record));
    copies.extend(pc_inside(record, turn));
    copies.extend(base(record));
    copies.extend(divisor(record));
    copies.extend(descriptor(record, turn));
    copies
}

/// Whether the step writes the field over without looking at it. Heap and step counter are added to.
fn written_over(record: &StepRecord, place: usize) -> bool {
    match place {
        HI => matches!(record.special(), Some(0x11 | 0x18..=0x1F)),
        LO => matches!(record.special(), Some(0x13 | 0x18..=0x1F)),
        OFFSET => record.key_bytes().is_some(),
        // Shifted out at the key's front.
        KEY => matches!(record.key_bytes(), Some(1..)),
        CODE => record.exits(),
        _ => false,
    }
}

/// Those fields that decide nothing but the new state.
fn fields(record: &StepRecord, turn: usize) -> Vec<Entry> {
    let plain = |f: &Field| ![PC, NEXT_PC, EXITED, RULES].contains(&f.1);
    let change = |f: Field| {
        let changed = other_value(record, OLD, f, turn);
        match written_over(record, f.1) {
            true => entry(format!("old {}, written over", f.0), changed, Verdict::Accepted),
            false => entry(format!("old {}", f.0), changed, DIFFERS),
        }
    };
    FIELDS.into_iter().filter(plain).map(change).collect()
}

/// Becomes pc, or stays with the exit call. Jumps and branches want it to be pc + 4.
fn next_pc(record: &StepRecord, turn: usize) -> Entry {
    let changed = record.with_bit_turned(OLD + NEXT_PC, 8, turn);
    match leads(record) {
        true => entry("old next_pc of a jump", changed, STEP_REFUSED),
        false => entry("old next_pc", changed, DIFFERS),
    }
}

fn leads(record: &StepRecord) -> bool {
    is_branch(record.word()) || is_jump(record.word())
}

/// Only jumps, branches and the exit call look at pc; for any other step it may be elsewhere, as long as the touched
/// bytes don't hold the instruction then.
fn moved_pc(record: &StepRecord) -> Option<Entry> {
    let pc = record.number(OLD + PC).wrapping_add(8);
    let changed = record.with_number(OLD + PC, pc);
    if leads(record) {
        Some(entry("old pc of a jump", changed, STEP_REFUSED))
    } else if record.exits() {
        Some(entry("old pc of the exit call", changed, DIFFERS))
    } else {
        let outside = !changed.touches_itself();
        outside.then(|| entry("old pc elsewhere", changed, Verdict::Accepted))
    }
}

/// 26: pc put into the touched bytes, which hold another word there. Where only the low word of pc says so, it lies
/// elsewhere, and the step is one still.
fn pc_inside(record: &StepRecord, turn: usize) -> Vec<Entry> {
    let (address, half) = match record.touched() {
        Some(address) if !record.touches_itself() => (address, turn % 2 * 4),
        _ => return Vec::new(),
    };
    let held = &record.bytes[OLD_EIGHT + half..OLD_EIGHT + half + 4];
    if *held == record.word().to_be_bytes() {
        return Vec::new();
    }
    let (inside, elsewhere) = (address + half as u64, address ^ 1 << (32 + turn % 32));
    vec![
        entry("old pc in the touched bytes", record.with_number(OLD + PC, inside), TOUCH),
        entry("old pc with the touched low word", record.with_number(OLD + PC, elsewhere), Verdict::Accepted),
    ]
}

/// The new rules are the old ones, if the other rules don't refuse the step: 7 off alignment, 6 for the least number by
/// -1.
fn rules(record: &StepRecord) -> Entry {
    let changed = record.with(OLD + RULES, &[record.rules() ^ 1]);
    let refused = match changed.rules() {
        0 => is_least_by_minus_one(record),
        _ => is_off_alignment(record),
    };
    match refused {
        true => entry("old rules, refused", changed, STEP_REFUSED),
        false => entry("old rules", changed, DIFFERS),
    }
}

fn is_off_alignment(record: &StepRecord) -> bool {
    let opcode = record.word() >> 26;
    is_load_or_store(record.word()) && record.given_address().map_or(0, |address| address % alignment(opcode)) != 0
}

fn is_least_by_minus_one(record: &StepRecord) -> bool {
    let (dividend, by) = (record.reg(rs(record.word())), record.reg(rt(record.word())));
    match record.special() {
        Some(0x1A) => (dividend as u32, by as u32) == (1 << 31, u32::MAX),
        Some(0x1E) => (dividend, by) == (1 << 63, u64::MAX),
        _ => false,
    }
}

/// 27: a register that the instruction neither names nor writes. Calls look at 2 to 7, links are in 31.
fn bystander(record: &StepRecord, turn: usize) -> Entry {
    let word = record.word();
    let named = |r: &u32| [rs(word), rt(word), rd(word), 31].contains(r) || (2..=7).contains(r);
    let register = (0..32).map(|k| (turn as u32 + k) % 32).find(|r| !named(r)).expect("more registers than fields");
    entry("old register", record.with_bit_turned(OLD + 8 * register as usize, 8, turn), DIFFERS)
}

/// 26: eight more in the register that the address comes from, which keeps its alignment.
fn base(record: &StepRecord) -> Option<Entry> {
    record.touched()?;
    let register = if is_load_or_store(record.word()) { rs(record.word()) } else { 5 };
    let changed = record.with_number(OLD + 8 * register as usize, record.reg(register).wrapping_add(8));
    Some(entry("old base of the address", changed, TOUCH))
}

/// 24: a divisor that is zero, for DIV and DIVU in its low word only.
fn divisor(record: &StepRecord) -> Option<Entry> {
    let zero = match record.special()? {
        0x1A | 0x1B => 1 << 32,
        0x1E | 0x1F => 0,
        _ => return None,
    };
    let at = OLD + 8 * rt(record.word()) as usize;
    Some(entry("old divisor", record.with_number(at, zero), STEP_REFUSED))
}

/// 25: a descriptor with which the call is wide.
fn descriptor(record: &StepRecord, turn: usize) -> Option<Entry> {
    let wide = match record.call()?.number {
        5000 => 5,
        5001 => [1, 2, 4][turn % 3],
        _ => return None,
    };
    Some(entry("old descriptor", record.with_number(OLD + 8 * 4, wide), WIDE))
}

/// Still steps, with a field changed in both states: the hint length and the code, which these steps keep, also at the
/// end of what document 01 allows, and the rules of a system call, which both rules have alike.
fn both(record: &StepRecord) -> Vec<Entry> {
    let most = MOST_HINT_ROOM as u64;
    let lengths = record.with_number(OLD + HINT_LENGTH, most).with_number(NEW + HINT_LENGTH, most);
    let mut copies = vec![entry("both hint lengths 65,536", lengths, Verdict::Accepted)];
    if !record.exits() {
        let code = [record.bytes[OLD + CODE] ^ 0xFF];
        let codes = record.with(OLD + CODE, &code).with(NEW + CODE, &code);
        copies.push(entry("both codes", codes, Verdict::Accepted));
    }
    if record.call().is_some() {
        copies.push(entry("both rules of a call", record.with_other_rules(), Verdict::Accepted));
    }
    copies
}
