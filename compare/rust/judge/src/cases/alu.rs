//! Operations on registers, on immediates, and on hi and lo.

use super::{Case, ALU, HI_LO, IMMEDIATE};
use crate::{
    edges::{AMOUNTS, EDGES, IMMEDIATES},
    encode::{i_type, r_type, SPECIAL, SPECIAL2},
    machine::{HI, LO},
    rng::Rng,
    scene::Scene,
};
use howitzer::mips::isa::{Special2Function, SpecialFunction};

/// Opcodes with an immediate operand, LUI among them.
pub const IMMEDIATE_OPCODES: [u32; 10] = [0x08, 0x09, 0x0A, 0x0B, 0x0C, 0x0D, 0x0E, 0x0F, 0x18, 0x19];

/// DIV, DIVU, DDIV, DDIVU.
pub const DIVISIONS: [u32; 4] = [0x1A, 0x1B, 0x1E, 0x1F];

/// Operands by which rounding, signs and widths of divisions show; the first two are the least numbers by -1.
pub const DIVIDED: [(u64, u64); 16] = [
    (0xFFFF_FFFF_8000_0000, u64::MAX),
    (0x8000_0000_0000_0000, u64::MAX),
    (0x8000_0000_0000_0000, 1),
    (0x7FFF_FFFF_FFFF_FFFF, u64::MAX),
    (0xFFFF_FFFF, 1),
    (0xFFFF_FFFF, 2),
    (0x8000_0000, 1),
    (0x8000_0000, 0xFFFF_FFFE),
    (0x8000_0001, 3),
    (u64::MAX, 0x8000_0001),
    (u64::MAX, 1),
    (1, u64::MAX),
    (7, 2),
    (7, u64::MAX - 1),
    (u64::MAX - 6, 2),
    (u64::MAX - 6, u64::MAX - 1),
];

/// An operation on registers: its code, its operands, and which of its register fields are the same.
#[derive(Clone, Copy)]
pub struct Operation {
    pub opcode: u32,
    pub funct: u32,
    pub shamt: u32,
    pub rs: u64,
    pub rt: u64,
    pub alias: usize,
}

/// All operations on registers: SPECIAL without jumps and the system call, and SPECIAL2.
pub fn operations() -> impl Iterator<Item = (u32, u32)> {
    let special = (0..64).filter(|f| SpecialFunction::try_from(*f).is_ok() && ![0x08, 0x09, 0x0C].contains(f));
    let special2 = (0..64).filter(|f| Special2Function::try_from(*f).is_ok());
    special.map(|f| (SPECIAL, f)).chain(special2.map(|f| (SPECIAL2, f)))
}

pub fn shifts_by_field(opcode: u32, funct: u32) -> bool {
    opcode == SPECIAL && [0x00, 0x02, 0x03, 0x38, 0x3A, 0x3B, 0x3C, 0x3E, 0x3F].contains(&funct)
}

pub fn shifts_by_register(opcode: u32, funct: u32) -> bool {
    opcode == SPECIAL && [0x04, 0x06, 0x07, 0x14, 0x16, 0x17].contains(&funct)
}

/// Three register fields: apart, or two the same, or one of them register 0, or as it comes.
pub fn fields(rng: &mut Rng, alias: usize) -> (u32, u32, u32) {
    let rs = 1 + rng.below(31) as u32;
    let rt = 1 + (rs + rng.below(15) as u32) % 31;
    let rd = 1 + (rs + 15 + rng.below(15) as u32) % 31;
    match alias % 8 {
        0 => (rs, rt, rd),
        1 => (rs, rt, rs),
        2 => (rs, rt, rt),
        3 => (rs, rs, rd),
        4 => (0, rt, rd),
        5 => (rs, 0, rd),
        6 => (rs, rt, 0),
        _ => (rng.register(), rng.register(), rng.register()),
    }
}

pub fn operation(rng: &mut Rng, case: &mut Case, o: Operation) {
    let hi_lo = o.opcode == SPECIAL && matches!(o.funct, 0x10..=0x13 | 0x18..=0x1F);
    let mut scene = Scene::new(rng, case, if hi_lo { HI_LO } else { ALU });
    let (rs, rt, rd) = fields(scene.rng, o.alias);
    scene.m().set_reg(rs, o.rs);
    scene.m().set_reg(rt, o.rt);
    if hi_lo {
        let (hi, lo) = (scene.rng.value(), scene.rng.value());
        scene.m().set(HI, hi);
        scene.m().set(LO, lo);
    }
    scene.code(r_type(o.opcode, rs, rt, rd, o.shamt, o.funct));
}

pub fn immediate(rng: &mut Rng, case: &mut Case, opcode: u32, rs_value: u64, immediate: u32, alias: usize) {
    let mut scene = Scene::new(rng, case, IMMEDIATE);
    let (rs, rt, _) = fields(scene.rng, alias);
    scene.m().set_reg(rs, rs_value);
    scene.code(i_type(opcode, rs, rt, immediate));
}

/// Each edge as either operand, every shift amount, every way of sharing registers; divisions by zero.
pub fn fixed(rng: &mut Rng, case: &mut Case, take: &mut dyn FnMut(&Case)) {
    for (opcode, funct) in operations() {
        for k in 0..64 {
            let mut o = Operation { opcode, funct, shamt: 0, rs: rng.value(), rt: rng.value(), alias: k };
            if shifts_by_field(opcode, funct) {
                o.shamt = k as u32 / 2;
            } else if shifts_by_register(opcode, funct) {
                o.rs = AMOUNTS[k / 4];
            } else if k < 28 {
                (o.rs, o.shamt) = (EDGES[k], k as u32);
            } else if k < 56 {
                o.rt = EDGES[k - 28];
            }
            operation(rng, case, o);
            take(case);
        }
    }
    fixed_divisions(rng, case, take);
    for opcode in IMMEDIATE_OPCODES {
        for k in 0..40 {
            let operand = if k < 28 { EDGES[k] } else { rng.value() };
            let value = if k < 30 { IMMEDIATES[k % 10] } else { rng.immediate() };
            immediate(rng, case, opcode, operand, value, k);
            take(case);
        }
    }
}

fn fixed_divisions(rng: &mut Rng, case: &mut Case, take: &mut dyn FnMut(&Case)) {
    for funct in DIVISIONS {
        let by_zero = (0..8).map(|alias| (rng.value(), 0, alias)).collect::<Vec<_>>();
        let apart = DIVIDED.iter().map(|(rs, rt)| (*rs, *rt, 0));
        for (rs, rt, alias) in by_zero.into_iter().chain(apart) {
            operation(rng, case, Operation { opcode: SPECIAL, funct, shamt: 0, rs, rt, alias });
            take(case);
        }
    }
}

pub fn random(rng: &mut Rng, case: &mut Case, all: &[(u32, u32)]) {
    let (opcode, funct) = rng.pick(all);
    let mut o = Operation { opcode, funct, shamt: 0, rs: rng.value(), rt: rng.value(), alias: rng.index(8) };
    if shifts_by_field(opcode, funct) || rng.one_in(4) {
        o.shamt = rng.register();
    }
    if shifts_by_register(opcode, funct) && rng.one_in(2) {
        o.rs = rng.pick(&AMOUNTS);
    }
    operation(rng, case, o);
}

pub fn random_immediate(rng: &mut Rng, case: &mut Case) {
    let (opcode, value, operand, alias) = (rng.pick(&IMMEDIATE_OPCODES), rng.immediate(), rng.value(), rng.index(8));
    immediate(rng, case, opcode, operand, value, alias);
}
