//! What a list of vectors covers: codes, offsets, refusals, calls and descriptors.

use crate::{
    answer::Answer,
    encode::{signed, REGIMM, SPECIAL, SPECIAL2},
    machine::{Machine, RULES},
    vector::Vector,
};
use howitzer::mips::isa::{Opcode, RegImmFunction, Special2Function, SpecialFunction};
use std::collections::BTreeMap;

/// Calls that linux.rs knows; 0 stands for all others in a count.
const CALLS: [u32; 7] = [5000, 5001, 5009, 5012, 5055, 5070, 5205];

#[derive(Default)]
pub struct Coverage {
    pub rules: BTreeMap<u8, u32>,
    pub classes: BTreeMap<u8, u32>,
    /// Unrefused steps of each instruction, by its name in isa.rs.
    pub stepped: BTreeMap<String, u32>,
    /// Loads and stores by the offset in the doubleword, refused or not.
    pub offsets: BTreeMap<String, [u32; 8]>,
    /// Codes that are refused, by their place in the instruction word.
    pub unknown: BTreeMap<(&'static str, u32), u32>,
    pub refusals: BTreeMap<u32, u32>,
    pub answers: BTreeMap<u8, u32>,
    /// By number and descriptor, 7 and 8 standing for all higher ones.
    pub calls: BTreeMap<(u32, u32), u32>,
}

/// In the Rust's table, and yet refused like a code that isn't.
const BEQL: u32 = 0x14;

/// The name of an instruction, or the place of a code that is refused.
pub fn name(word: u32) -> Result<String, (&'static str, u32)> {
    let (opcode, funct, field) = (word >> 26, word & 0x3F, word >> 16 & 31);
    let named = |shown: Result<String, anyhow::Error>, table, code| shown.map_err(|_| (table, code));
    match opcode {
        SPECIAL => named(SpecialFunction::try_from(funct).map(|f| format!("{f:?}")), "SPECIAL", funct),
        SPECIAL2 => named(Special2Function::try_from(funct).map(|f| format!("{f:?}")), "SPECIAL2", funct),
        REGIMM => named(RegImmFunction::try_from(field).map(|f| format!("{f:?}")), "REGIMM", field),
        BEQL => Err(("opcode", BEQL)),
        _ => named(Opcode::try_from(opcode).map(|f| format!("{f:?}")), "opcode", opcode),
    }
}

fn is_access(word: u32) -> bool {
    matches!(word >> 26, 0x1A | 0x1B | 0x20..=0x2E | 0x30 | 0x34 | 0x37 | 0x38 | 0x3C | 0x3F)
}

impl Coverage {
    pub fn add(&mut self, vector: &Vector) {
        let (m, answer) = (&vector.case.machine, vector.answer.expect("a read vector has an answer"));
        *self.rules.entry(m.state[RULES]).or_default() += 1;
        *self.classes.entry(vector.case.class).or_default() += 1;
        *self.answers.entry(answer.numbers().0).or_default() += 1;
        if let Answer::Refused { number } = answer {
            *self.refusals.entry(number).or_default() += 1;
        }
        if let Some(word) = m.instruction() {
            self.instruction(m, word, answer);
        }
    }

    fn instruction(&mut self, m: &Machine, word: u32, answer: Answer) {
        let name = match name(word) {
            Ok(name) => name,
            Err(code) => {
                *self.unknown.entry(code).or_default() += 1;
                return;
            }
        };
        if is_access(word) {
            let address = m.reg(word >> 21 & 31).wrapping_add(signed(word));
            self.offsets.entry(name.clone()).or_default()[address as usize % 8] += 1;
        }
        if let Some(call) = m.call() {
            let number = if CALLS.contains(&call.number) { call.number } else { 0 };
            *self.calls.entry((number, call.descriptor.min(8))).or_default() += 1;
        }
        if !matches!(answer, Answer::Refused { .. }) {
            *self.stepped.entry(name).or_default() += 1;
        }
    }

    /// Everything that a list for these rules should cover and doesn't.
    pub fn missing(&self, rules: u8) -> Vec<String> {
        let mut missing = Vec::new();
        for word in every_code() {
            self.missing_code(word, rules, &mut missing);
        }
        let refusals: &[u32] = if rules == 0 { &[2, 3, 4, 5, 13] } else { &[7] };
        let lacking = refusals.iter().filter(|number| !self.refusals.contains_key(number));
        missing.extend(lacking.map(|number| format!("refusal {number}")));
        if rules == 0 {
            let calls = CALLS.into_iter().chain([0]).flat_map(|call| (0..9).map(move |descriptor| (call, descriptor)));
            let lacking = calls.filter(|call| !self.calls.contains_key(call));
            missing.extend(lacking.map(|(call, descriptor)| format!("call {call} on {descriptor}")));
        }
        missing
    }

    fn missing_code(&self, word: u32, rules: u8, missing: &mut Vec<String>) {
        let name = match name(word) {
            Ok(name) => name,
            // Rules 1 has no judge for codes that are refused, and none for system calls.
            Err(code) if rules == 0 && !self.unknown.contains_key(&code) => {
                return missing.push(format!("{code:02x?}"))
            }
            Err(_) => return,
        };
        let judged = rules == 0 || name != "SYSCALL";
        if judged && !self.stepped.contains_key(&name) {
            missing.push(name.clone());
        }
        if is_access(word) {
            // Under rules 1 SC and SCD are judged only where they are aligned.
            let step = match &name[..] {
                "SC" if rules == 1 => 4,
                "SCD" if rules == 1 => 8,
                _ => 1,
            };
            let seen = self.offsets.get(&name).copied().unwrap_or_default();
            let lacking = (0..8).step_by(step).filter(|offset| seen[*offset] == 0);
            missing.extend(lacking.map(|offset| format!("{name} at offset {offset}")));
        }
    }
}

/// A word for each of the 224 codes: 61 opcodes of their own, 64 SPECIAL, 64 SPECIAL2 and 32 REGIMM.
pub fn every_code() -> impl Iterator<Item = u32> {
    let opcodes = (0..64).filter(|opcode| ![SPECIAL, SPECIAL2, REGIMM].contains(opcode)).map(|opcode| opcode << 26);
    let special = (0..64).flat_map(|funct| [SPECIAL << 26 | funct, SPECIAL2 << 26 | funct]);
    opcodes.chain(special).chain((0..32).map(|field| REGIMM << 26 | field << 16))
}
