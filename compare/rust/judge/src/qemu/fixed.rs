//! The fixed list for rules 1: every instruction with its edges, every offset, branches taken and not.

use super::{cases::Maker, trial::Trial};
use crate::{
    cases::{
        alu::{shifts_by_register, DIVIDED, DIVISIONS, IMMEDIATE_OPCODES},
        jumps::BRANCHES,
        loads::{alignment, LOADS, STORES},
    },
    edges::{AMOUNTS, EDGES, IMMEDIATES},
    encode::SPECIAL,
    examples::EXAMPLES,
};

pub const SEED: u64 = 64_000_001;

pub fn all(take: &mut dyn FnMut(Trial)) {
    let mut maker = Maker::new(SEED);
    for example in EXAMPLES.iter().filter(|example| example.in_qemu()) {
        take(maker.example(example));
    }
    operations(&mut maker, take);
    immediates(&mut maker, take);
    accesses(&mut maker, take);
    branches(&mut maker, take);
}

fn operations(maker: &mut Maker, take: &mut dyn FnMut(Trial)) {
    for code in maker.operations.clone() {
        for k in 0..64 {
            let (mut a, mut b) = (maker.rng.value(), maker.rng.value());
            if shifts_by_register(code.0, code.1) {
                a = AMOUNTS[k / 4];
            } else if k < 28 {
                a = EDGES[k];
            } else if k < 56 {
                b = EDGES[k - 28];
            }
            maker.operation(code, a, b, k as u32 / 2, k).into_iter().for_each(&mut *take);
        }
    }
    for funct in DIVISIONS {
        for (rs, rt) in DIVIDED {
            maker.operation((SPECIAL, funct), rs, rt, 0, 0).into_iter().for_each(&mut *take);
        }
    }
}

fn immediates(maker: &mut Maker, take: &mut dyn FnMut(Trial)) {
    for opcode in IMMEDIATE_OPCODES {
        for k in 0..40 {
            let operand = if k < 28 { EDGES[k] } else { maker.rng.value() };
            let value = if k < 30 { IMMEDIATES[k % 10] } else { maker.rng.immediate() };
            take(maker.immediate(opcode, operand, value, k));
        }
    }
}

/// All offsets three times, also those that trap; after that only those that don't.
fn accesses(maker: &mut Maker, take: &mut dyn FnMut(Trial)) {
    for opcode in LOADS.into_iter().chain(STORES) {
        for k in 0..80 {
            let memory = if k % 5 == 0 { 0x0102_0304_0506_0708 } else { maker.rng.value() };
            let value = maker.rng.value();
            let cut = if k < 24 { 0 } else { k % alignment(opcode) };
            take(maker.access(opcode, (k - cut) % 8, memory, value));
        }
    }
}

fn branches(maker: &mut Maker, take: &mut dyn FnMut(Trial)) {
    for code in BRANCHES {
        for k in 0..48 {
            let value =
                if k < 36 { EDGES.get(k).copied().unwrap_or([0, 1, u64::MAX][k % 3]) } else { maker.rng.value() };
            let immediate = if k < 10 { IMMEDIATES[k] } else { maker.rng.immediate() };
            take(maker.branch(code, value, immediate));
        }
    }
    for _ in 0..32 {
        for k in 0..2 {
            take(maker.jump(0x02 + k));
            take(maker.register_jump(0x08 + k));
        }
    }
}
