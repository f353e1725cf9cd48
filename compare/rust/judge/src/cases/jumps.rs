//! Branches and jumps.

use super::{Case, BRANCH, JUMP};
use crate::{
    edges::{EDGES, IMMEDIATES},
    encode::{i_type, j_type, r_type, REGIMM, SPECIAL},
    machine::PAGE,
    rng::Rng,
    scene::Scene,
};

/// BEQ, BNE, BLEZ, BGTZ; then BLTZ, BGEZ and BGEZAL, which stand in the rt field of REGIMM.
pub const BRANCHES: [(u32, Option<u32>); 7] = [
    (0x04, None),
    (0x05, None),
    (0x06, None),
    (0x07, None),
    (REGIMM, Some(0x00)),
    (REGIMM, Some(0x01)),
    (REGIMM, Some(0x11)),
];

const J: u32 = 0x02;
const JAL: u32 = 0x03;
const JR: u32 = 0x08;
const JALR: u32 = 0x09;

/// Lays the word at a pc that the next instruction follows, or in a delay slot.
fn lay(mut scene: Scene, word: u32, slot: bool) {
    let pc = scene.pc();
    let next = if slot { scene.elsewhere(pc) } else { pc.wrapping_add(4) };
    scene.code_at(pc, next, word);
    scene.close(pc / PAGE as u64);
}

pub fn branch(rng: &mut Rng, case: &mut Case, code: (u32, Option<u32>), rs_value: u64, immediate: u32, slot: bool) {
    let mut scene = Scene::new(rng, case, BRANCH);
    let rs = scene.rng.register();
    let rt = code.1.unwrap_or_else(|| scene.rng.register());
    let other = if scene.rng.one_in(2) { rs_value } else { scene.rng.value() };
    if code.1.is_none() {
        scene.m().set_reg(rt, other);
    }
    scene.m().set_reg(rs, rs_value);
    lay(scene, i_type(code.0, rs, rt, immediate), slot);
}

pub fn jump(rng: &mut Rng, case: &mut Case, opcode: u32, index: u32, slot: bool) {
    let scene = Scene::new(rng, case, JUMP);
    lay(scene, j_type(opcode, index), slot);
}

/// JR and JALR; the linked register may be the one jumped to.
pub fn register_jump(rng: &mut Rng, case: &mut Case, funct: u32, target: u64, slot: bool) {
    let mut scene = Scene::new(rng, case, JUMP);
    let rs = scene.rng.register();
    let (any, rt, shamt) = (scene.rng.register(), scene.rng.register(), scene.rng.register());
    let rd = scene.rng.pick(&[any, any, 31, rs, 0]);
    scene.m().set_reg(rs, target);
    lay(scene, r_type(SPECIAL, rs, rt, rd, shamt, funct), slot);
}

/// Each edge as the compared register, every edge of the immediate, and each jump also in a delay slot.
pub fn fixed(rng: &mut Rng, case: &mut Case, take: &mut dyn FnMut(&Case)) {
    for code in BRANCHES {
        for k in 0..48 {
            let value = if k < 36 { EDGES.get(k).copied().unwrap_or([0, 1, u64::MAX][k % 3]) } else { rng.value() };
            let immediate = if k < 10 { IMMEDIATES[k] } else { rng.immediate() };
            branch(rng, case, code, value, immediate, k >= 42);
            take(case);
        }
    }
    for k in 0..40 {
        let index =
            if k < 6 { [0, 1, 0x01FF_FFFF, 0x0200_0000, 0x03FF_FFFE, 0x03FF_FFFF][k] } else { rng.next() as u32 };
        for opcode in [J, JAL] {
            jump(rng, case, opcode, index, k >= 34);
            take(case);
        }
        let target = if k < 28 { EDGES[k] } else { rng.value() & !3 };
        for funct in [JR, JALR] {
            register_jump(rng, case, funct, target, k >= 34);
            take(case);
        }
    }
}

pub fn random(rng: &mut Rng, case: &mut Case) {
    let (value, immediate, index, slot) = (rng.value(), rng.immediate(), rng.next() as u32, rng.one_in(16));
    match rng.below(11) {
        0 => jump(rng, case, J, index, slot),
        1 => jump(rng, case, JAL, index, slot),
        2 => register_jump(rng, case, JR, value, slot),
        3 => register_jump(rng, case, JALR, value, slot),
        k => branch(rng, case, BRANCHES[k as usize - 4], value, immediate, slot),
    }
}
