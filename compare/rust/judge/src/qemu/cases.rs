//! Trials for rules 1: what a user program can run and the manual defines.

use super::{
    choices::on_words,
    places,
    trial::{Flow, Trial, CODE},
};
use crate::{
    cases::{
        alu::{fields, operations, shifts_by_field, shifts_by_register, DIVISIONS, IMMEDIATE_OPCODES},
        jumps::BRANCHES,
        loads::{LOADS, STORES},
        Case, ALU, BRANCH, EXAMPLE, HI_LO, IMMEDIATE, JUMP, LOAD, STORE,
    },
    edges::AMOUNTS,
    encode::{i_type, j_type, r_type, signed, SPECIAL, SPECIAL2},
    examples::{Example, DATUM},
    machine::{HEAP, HI, LO, PAGE, RULES},
    rng::Rng,
    scene::Scene,
};

const LUI: u32 = 0x0F;
const LL: u32 = 0x30;
const LLD: u32 = 0x34;
const SC: u32 = 0x38;
const SCD: u32 = 0x3C;
const JR: u32 = 0x08;

/// Makes trials one after another.
pub struct Maker {
    pub rng: Rng,
    pub operations: Vec<(u32, u32)>,
}

/// What a trial is made of, once its instruction and operands are chosen.
struct Draft<'a> {
    class: u8,
    word: u32,
    pc: u64,
    flow: Flow,
    /// Address and content of the touched doubleword.
    touched: Option<(u64, u64)>,
    registers: &'a [(u32, u64)],
}

impl Maker {
    pub fn new(seed: u64) -> Self {
        Maker { rng: Rng::new(seed), operations: operations().collect() }
    }

    fn build(&mut self, draft: Draft) -> Trial {
        let mut case = Case::default();
        let mut scene = Scene::new(&mut self.rng, &mut case, draft.class);
        scene.m().state[RULES] = 1;
        if draft.class == HI_LO {
            let (hi, lo) = (scene.rng.value(), scene.rng.value());
            scene.m().set(HI, hi);
            scene.m().set(LO, lo);
        }
        for (register, value) in draft.registers {
            scene.m().set_reg(*register, *value);
        }
        // A user program's register 0 is zero.
        scene.m().set_reg(0, 0);
        if let Some((address, memory)) = draft.touched {
            scene.put(address, &memory.to_be_bytes());
        }
        let next = match draft.flow {
            Flow::InSlot { target } => target,
            _ => draft.pc + 4,
        };
        scene.code_at(draft.pc, next, draft.word);
        scene.close(draft.pc / PAGE as u64);
        Trial { case, flow: draft.flow, touched: draft.touched.map(|(address, _)| address) }
    }

    /// An example of document 01: the given instruction and operands, the doubleword at its place, and no heap yet.
    pub fn example(&mut self, example: &Example) -> Trial {
        let (pc, touched) = (CODE[0] + 0x3_0000, example.memory.map(|memory| (DATUM, memory)));
        let (word, registers) = (example.word, example.registers);
        let mut trial = self.build(Draft { class: EXAMPLE, word, pc, flow: Flow::Next, touched, registers });
        trial.case.machine.set(HEAP, 0);
        trial
    }

    /// Where an instruction stands that is no jump: now and then in a delay slot.
    fn way(&mut self) -> (u64, Flow) {
        let pc = places::pc(&mut self.rng);
        if self.rng.one_in(8) {
            let target = places::near(&mut self.rng, pc, pc);
            (pc, Flow::InSlot { target })
        } else {
            (pc, Flow::Next)
        }
    }

    fn plain(&mut self, class: u8, word: u32, registers: &[(u32, u64)]) -> Trial {
        let (pc, flow) = self.way();
        self.build(Draft { class, word, pc, flow, touched: None, registers })
    }

    /// An operation on registers; nothing for a division by zero, which the manual leaves open.
    pub fn operation(
        &mut self,
        code: (u32, u32),
        rs_value: u64,
        rt_value: u64,
        shamt: u32,
        alias: usize,
    ) -> Option<Trial> {
        let (rs_value, rt_value) = defined(code, rs_value, rt_value);
        let fields = defined_fields(code, fields(&mut self.rng, alias));
        let divides = code.0 == SPECIAL && DIVISIONS.contains(&code.1);
        if divides && (fields.1 == 0 || rt_value == 0) {
            return None;
        }
        Some(self.operation_on(code, fields, (rs_value, rt_value), shamt))
    }

    fn operation_on(
        &mut self,
        (opcode, funct): (u32, u32),
        (rs, rt, rd): (u32, u32, u32),
        (rs_value, rt_value): (u64, u64),
        shamt: u32,
    ) -> Trial {
        let shamt = if shifts_by_field(opcode, funct) { shamt } else { 0 };
        let hi_lo = opcode == SPECIAL && matches!(funct, 0x10..=0x13 | 0x18..=0x1F);
        let class = if hi_lo { HI_LO } else { ALU };
        self.plain(class, r_type(opcode, rs, rt, rd, shamt, funct), &[(rs, rs_value), (rt, rt_value)])
    }

    pub fn immediate(&mut self, opcode: u32, rs_value: u64, immediate: u32, alias: usize) -> Trial {
        let (rs, rt, _) = fields(&mut self.rng, alias);
        let rs = if opcode == LUI { 0 } else { rs };
        let rs_value = if matches!(opcode, 0x08 | 0x09) { word(rs_value) } else { rs_value };
        self.plain(IMMEDIATE, i_type(opcode, rs, rt, immediate), &[(rs, rs_value)])
    }

    /// A load or store. SC and SCD follow a load-linked and stay aligned: off alignment QEMU looks at the link first.
    pub fn access(&mut self, opcode: u32, offset: u64, memory: u64, rt_value: u64) -> Trial {
        let (pc, flow) = self.way();
        let (flow, offset) = match opcode {
            SC => (Flow::Linked { load: LL }, offset & 4),
            SCD => (Flow::Linked { load: LLD }, 0),
            _ => (flow, offset),
        };
        self.access_at(opcode, (pc, flow), offset, memory, rt_value)
    }

    fn access_at(&mut self, opcode: u32, (pc, flow): (u64, Flow), offset: u64, memory: u64, rt_value: u64) -> Trial {
        let address = places::doubleword(&mut self.rng);
        let (rs, immediate) = (1 + self.rng.below(31) as u32, self.rng.immediate());
        let rt = if self.rng.one_in(8) { rs } else { self.rng.register() };
        let base = (address + offset).wrapping_sub(signed(immediate));
        let class = if STORES.contains(&opcode) { STORE } else { LOAD };
        let (word, touched) = (i_type(opcode, rs, rt, immediate), Some((address, memory)));
        self.build(Draft { class, word, pc, flow, touched, registers: &[(rt, rt_value), (rs, base)] })
    }

    /// One by chance on which the manual leaves something open or document 01 may choose otherwise: words with any
    /// upper half, divisions by zero, SC and SCD that nothing was linked for.
    pub fn random_open(&mut self) -> Trial {
        let (a, b, shamt, k) = (self.rng.value(), self.rng.value(), self.rng.register(), self.rng.index(8));
        match self.rng.below(8) {
            0 => {
                let opcode = self.rng.pick(&[SC, SCD]);
                let offset = if opcode == SC { 4 * (k as u64 % 2) } else { 0 };
                let pc = places::pc(&mut self.rng);
                self.access_at(opcode, (pc, Flow::Next), offset, a, b)
            }
            1 => {
                let code = (SPECIAL, self.rng.pick(&DIVISIONS));
                let fields = defined_fields(code, fields(&mut self.rng, k));
                self.operation_on(code, fields, (a, 0), shamt)
            }
            _ => {
                let code = self.rng.pick(&self.operations);
                let code = if on_words(code) { code } else { (SPECIAL, 0x03 + 4 * (k as u32 % 2)) };
                let fields = defined_fields(code, fields(&mut self.rng, k));
                self.operation_on(code, fields, (a, b), shamt)
            }
        }
    }

    pub fn branch(&mut self, code: (u32, Option<u32>), rs_value: u64, immediate: u32) -> Trial {
        // A target among the words laid around the branch would overwrite them.
        let immediate = if (signed(immediate) as i64).abs() < 4 { immediate ^ 0x40 } else { immediate };
        let pc = places::pc(&mut self.rng);
        let target = pc.wrapping_add(4).wrapping_add(signed(immediate) << 2);
        // The manual leaves a link into its own source open.
        let rs = self.rng.below(31) as u32;
        let compared = if self.rng.one_in(2) { rs_value } else { self.rng.value() };
        let (rt, rt_value) = match code {
            (0x04 | 0x05, _) => (self.rng.register(), compared),
            (_, field) => (field.unwrap_or(0), 0),
        };
        let word = i_type(code.0, rs, rt, immediate);
        let both = [(rt, rt_value), (rs, rs_value)];
        let registers = if matches!(code.0, 0x04 | 0x05) { &both[..] } else { &both[1..] };
        self.build(Draft { class: BRANCH, word, pc, flow: Flow::Branch { target }, touched: None, registers })
    }

    pub fn jump(&mut self, opcode: u32) -> Trial {
        let pc = places::pc(&mut self.rng);
        let target = places::near(&mut self.rng, pc + 4, pc);
        let word = j_type(opcode, (target >> 2) as u32);
        let flow = Flow::Branch { target };
        self.build(Draft { class: JUMP, word, pc, flow, touched: None, registers: &[] })
    }

    /// JR and JALR; the manual leaves a link into the register jumped through open.
    pub fn register_jump(&mut self, funct: u32) -> Trial {
        let pc = places::pc(&mut self.rng);
        let target = places::far(&mut self.rng, pc);
        let rs = 1 + self.rng.below(31) as u32;
        let any = self.rng.register();
        let rd = if funct == JR || any == rs { 0 } else { any };
        let word = r_type(SPECIAL, rs, 0, rd, 0, funct);
        let flow = Flow::Branch { target };
        self.build(Draft { class: JUMP, word, pc, flow, touched: None, registers: &[(rs, target)] })
    }

    /// One by chance.
    pub fn random(&mut self) -> Option<Trial> {
        let (a, b, immediate, k) = (self.rng.value(), self.rng.value(), self.rng.immediate(), self.rng.index(8));
        match self.rng.below(16) {
            0..=5 => self.random_operation(a, b, immediate & 31, k),
            6..=7 => {
                let opcode = self.rng.pick(&IMMEDIATE_OPCODES);
                Some(self.immediate(opcode, a, immediate, k))
            }
            8..=10 => {
                let opcode = self.rng.pick(&LOADS);
                Some(self.access(opcode, k as u64, a, b))
            }
            11..=12 => {
                let opcode = self.rng.pick(&STORES);
                Some(self.access(opcode, k as u64, a, b))
            }
            13..=14 => {
                let code = self.rng.pick(&BRANCHES);
                Some(self.branch(code, a, immediate))
            }
            _ if k < 4 => Some(self.jump(0x02 + k as u32 % 2)),
            _ => Some(self.register_jump(0x08 + k as u32 % 2)),
        }
    }

    fn random_operation(&mut self, a: u64, b: u64, shamt: u32, alias: usize) -> Option<Trial> {
        let code = self.rng.pick(&self.operations);
        let by_amount = shifts_by_register(code.0, code.1) && self.rng.one_in(2);
        let a = if by_amount { self.rng.pick(&AMOUNTS) } else { a };
        self.operation(code, a, b, shamt, alias)
    }
}

fn word(value: u64) -> u64 {
    value as i32 as i64 as u64
}

/// The operands with which the manual defines the operation: 32-bit operations want sign-extended words, but SLL and
/// SLLV take any.
fn defined((opcode, funct): (u32, u32), rs: u64, rt: u64) -> (u64, u64) {
    match (opcode, funct) {
        (SPECIAL, 0x18..=0x1B | 0x20..=0x23) | (SPECIAL2, 0x02 | 0x20 | 0x21) => (word(rs), word(rt)),
        (SPECIAL, 0x02 | 0x03 | 0x06 | 0x07) => (rs, word(rt)),
        _ => (rs, rt),
    }
}

/// Fields that are zero in the manual stay so, with two exceptions in which QEMU ignores what document 01 ignores:
/// all fields of SYNC, and the upper bits of rd in products, divisions and moves to hi and lo.
fn defined_fields((opcode, funct): (u32, u32), (rs, rt, rd): (u32, u32, u32)) -> (u32, u32, u32) {
    let spare = if rd % 2 == 0 { rd & !3 } else { 0 };
    match (opcode, funct) {
        // The manual wants the destination of CLO, CLZ and DCLZ in both fields.
        (SPECIAL2, 0x20 | 0x21 | 0x24) => (rs, rd, rd),
        (SPECIAL, 0x10 | 0x12) => (0, 0, rd),
        (SPECIAL, 0x11 | 0x13) => (rs, 0, spare),
        (SPECIAL, 0x18..=0x1F) => (rs, rt, spare),
        (SPECIAL, _) if shifts_by_field(opcode, funct) => (0, rt, rd),
        _ => (rs, rt, rd),
    }
}
