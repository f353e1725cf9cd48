//! What document 01 chooses under rules 1 where the manual traps, asks for more or leaves the outcome open, and so
//! parts from QEMU. Where QEMU has another instruction that does what was chosen, that one is the judge.

use super::trial::{Flow, Trial};
use crate::{
    encode::{SPECIAL, SPECIAL2},
    machine::*,
};

const ADDI: u32 = 0x08;
const ADDIU: u32 = 0x09;
const DADDI: u32 = 0x18;
const DADDIU: u32 = 0x19;
const LL: u32 = 0x30;
const LLD: u32 = 0x34;
const SC: u32 = 0x38;
const SCD: u32 = 0x3C;

#[derive(Clone, Copy, Debug, Eq, Ord, PartialEq, PartialOrd)]
pub enum Choice {
    Wraps,
    LowWords,
    Stores,
    Zero,
}

impl Choice {
    pub fn text(self) -> &'static str {
        match self {
            Choice::Wraps => "wraps where QEMU traps; as the unchecked instruction in QEMU",
            Choice::LowWords => "takes low words of other operands; as QEMU with these sign-extended",
            Choice::Stores => "stores without a load-linked; as QEMU after one",
            Choice::Zero => "division by zero refused with 5, where QEMU goes on",
        }
    }

    /// The choice that holds of a trial before it is run; that the ADD family overflows is seen by QEMU.
    pub fn of(trial: &Trial) -> Option<Choice> {
        let m = &trial.case.machine;
        let word = m.instruction()?;
        let (rs, rt) = (m.reg(word >> 21 & 31), m.reg(word >> 16 & 31));
        match (word >> 26, word & 0x3F) {
            (SPECIAL, 0x1A | 0x1B) if rt as u32 == 0 => Some(Choice::Zero),
            (SPECIAL, 0x1E | 0x1F) if rt == 0 => Some(Choice::Zero),
            code if on_words(code) && (rs, rt) != (sign_extended(rs), sign_extended(rt)) => Some(Choice::LowWords),
            (SC | SCD, _) if !matches!(trial.flow, Flow::Linked { .. }) => Some(Choice::Stores),
            _ => None,
        }
    }

    /// The trial in which QEMU does what document 01 chooses. Operations on words always get them sign-extended: one
    /// that overflows may have had other operands too.
    pub fn twin(self, trial: &Trial) -> Option<Trial> {
        let mut twin = trial.clone();
        let m = &mut twin.case.machine;
        let (pc, word) = (m.get(PC), m.word(m.get(PC)));
        for register in words(word) {
            m.set_reg(register, sign_extended(m.reg(register)));
        }
        match self {
            Choice::Wraps => lay(m, pc, unchecked(word)),
            Choice::LowWords => {}
            Choice::Stores => twin.flow = Flow::Linked { load: if word >> 26 == SC { LL } else { LLD } },
            Choice::Zero => return None,
        }
        Some(twin)
    }
}

/// Makes the machine after a twin the one after its trial: what the twin had of its own goes back.
pub fn back(trial: &Trial, after: &mut Machine) {
    let m = &trial.case.machine;
    let (pc, word) = (m.get(PC), m.word(m.get(PC)));
    lay(after, pc, word);
    for register in words(word).into_iter().filter(|register| Some(*register) != written(word)) {
        after.set_reg(register, m.reg(register));
    }
}

/// Operations on words, for which the manual wants sign-extended operands.
pub fn on_words((opcode, funct): (u32, u32)) -> bool {
    match opcode {
        SPECIAL => matches!(funct, 0x02 | 0x03 | 0x06 | 0x07 | 0x18..=0x1B | 0x20..=0x23),
        SPECIAL2 => matches!(funct, 0x02 | 0x20 | 0x21),
        _ => false,
    }
}

/// The registers that an instruction takes words from, if it is an operation on words.
fn words(word: u32) -> Vec<u32> {
    match on_words((word >> 26, word & 0x3F)) {
        true => vec![word >> 21 & 31, word >> 16 & 31],
        false => Vec::new(),
    }
}

/// The register that an operation on words writes; products and divisions write none.
fn written(word: u32) -> Option<u32> {
    let into_hi_lo = word >> 26 == SPECIAL && matches!(word & 0x3F, 0x18..=0x1B);
    (!into_hi_lo).then_some(word >> 11 & 31)
}

fn sign_extended(value: u64) -> u64 {
    value as i32 as i64 as u64
}

/// The same operation that doesn't trap.
fn unchecked(word: u32) -> u32 {
    let opcode = match word >> 26 {
        ADDI => ADDIU,
        DADDI => DADDIU,
        _ => return word | 1,
    };
    opcode << 26 | word & 0x03FF_FFFF
}

fn lay(m: &mut Machine, address: u64, word: u32) {
    let at = m.page(address / PAGE as u64).expect("the code's page is held") + address as usize % PAGE;
    m.pages[at..at + 4].copy_from_slice(&word.to_be_bytes());
}
