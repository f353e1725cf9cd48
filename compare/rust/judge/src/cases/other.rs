//! Codes that nobody knows, instructions that can't be fetched or are found in odd places, and exited states.

use super::{Case, EXITED, FETCH, UNKNOWN};
use crate::{
    encode::{REGIMM, SPECIAL, SPECIAL2},
    machine,
    machine::{PAGE, RECORD},
    rng::Rng,
    scene::Scene,
};
use howitzer::mips::isa::{Opcode, RegImmFunction, Special2Function, SpecialFunction};

/// A word with this code and anything in its other fields.
#[derive(Clone, Copy)]
pub enum Code {
    Opcode(u32),
    Special(u32),
    Special2(u32),
    RegImm(u32),
}

/// All codes that the Rust's tables lack, and BEQL, which is in them and yet refused.
pub fn unknown() -> Vec<Code> {
    let opcodes = (0..64).filter(|c| Opcode::try_from(*c).is_err() || *c == 0x14).map(Code::Opcode);
    let special = (0..64).filter(|c| SpecialFunction::try_from(*c).is_err()).map(Code::Special);
    let special2 = (0..64).filter(|c| Special2Function::try_from(*c).is_err()).map(Code::Special2);
    let reg_imm = (0..32).filter(|c| RegImmFunction::try_from(*c).is_err()).map(Code::RegImm);
    opcodes.chain(special).chain(special2).chain(reg_imm).collect()
}

fn word(rng: &mut Rng, code: Code) -> u32 {
    let any = rng.next() as u32;
    match code {
        Code::Opcode(c) => c << 26 | any >> 6,
        Code::Special(c) => SPECIAL << 26 | any >> 6 & !0x3F | c,
        Code::Special2(c) => SPECIAL2 << 26 | any >> 6 & !0x3F | c,
        Code::RegImm(c) => REGIMM << 26 | any >> 6 & !(31 << 16) | c << 16,
    }
}

/// An unknown code, in a delay slot or not: REGIMM looks at the slot first, the others at the code.
pub fn unknown_code(rng: &mut Rng, case: &mut Case, code: Code, slot: bool) {
    let mut scene = Scene::new(rng, case, UNKNOWN);
    let word = word(scene.rng, code);
    let pc = scene.pc();
    let next = if slot { scene.elsewhere(pc) } else { pc.wrapping_add(4) };
    scene.code_at(pc, next, word);
    scene.close(pc / PAGE as u64);
}

/// A pc off its word, over a word that may itself be refused.
pub fn misaligned(rng: &mut Rng, case: &mut Case, off: u64) {
    let mut scene = Scene::new(rng, case, FETCH);
    let (pc, next) = scene.spot();
    let word = scene.rng.next() as u32;
    scene.code_at(pc + off, next, word);
    scene.close(pc / PAGE as u64);
}

/// Nothing at pc: its page is absent or stands in a record that isn't used, so the instruction reads as zero.
pub fn absent(rng: &mut Rng, case: &mut Case, k: u64) {
    let mut scene = Scene::new(rng, case, FETCH);
    let (pc, next) = scene.spot();
    let number = pc / PAGE as u64;
    if k % 2 == 0 {
        scene.record(number.wrapping_add(1));
    }
    scene.m().set(machine::PC, pc);
    scene.m().set(machine::NEXT_PC, next);
    scene.close(number);
}

/// Two used records with the page of pc: the first one's word counts.
pub fn twice(rng: &mut Rng, case: &mut Case) {
    let mut scene = Scene::new(rng, case, FETCH);
    let (pc, next) = scene.spot();
    let (first, second) = (scene.rng.next() as u32, scene.rng.next() as u32);
    scene.code_at(pc, next, first & 0x03FF_FFFF | 0x2400_0000);
    scene.record(pc / PAGE as u64);
    let at = RECORD + 8 + pc as usize % PAGE;
    scene.m().pages[at..at + 4].copy_from_slice(&(second & 0x03FF_FFFF | 0x3400_0000).to_be_bytes());
    scene.close(pc / PAGE as u64);
}

/// An exited state: nothing is looked at any more.
pub fn exited(rng: &mut Rng, case: &mut Case) {
    let mut scene = Scene::new(rng, case, EXITED);
    let word = scene.rng.next() as u32;
    let (pc, next) = scene.spot();
    let off = scene.rng.pick(&[0, 0, 2]);
    scene.code_at(pc + off, next, word);
    scene.m().state[machine::EXITED] = 1;
    scene.m().state[machine::CODE] = scene.rng.pick(&[0, 1, 2, 0x7F, 0x80, 0xFF]);
    scene.close(pc / PAGE as u64);
}

pub fn fixed(rng: &mut Rng, case: &mut Case, take: &mut dyn FnMut(&Case)) {
    for code in unknown() {
        for k in 0..4 {
            unknown_code(rng, case, code, k == 3);
            take(case);
        }
    }
    for k in 0..60 {
        misaligned(rng, case, 1 + k % 3);
        take(case);
        absent(rng, case, k);
        take(case);
    }
    for _ in 0..30 {
        twice(rng, case);
        take(case);
        exited(rng, case);
        take(case);
    }
}

pub fn random(rng: &mut Rng, case: &mut Case, all: &[Code]) {
    let (code, off, k) = (rng.pick(all), 1 + rng.below(3), rng.next());
    match rng.below(6) {
        0 => misaligned(rng, case, off),
        1 => absent(rng, case, k),
        2 => twice(rng, case),
        3 => exited(rng, case),
        _ => unknown_code(rng, case, code, off == 3),
    }
}
