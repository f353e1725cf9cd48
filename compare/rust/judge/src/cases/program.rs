//! Machines that go on for thousands of steps: two pages of code with loops, jumps and system calls in it.

use super::{
    alu::{operations, IMMEDIATE_OPCODES},
    calls::{DESCRIPTORS, NUMBERS, READ, WRITE},
    jumps::BRANCHES,
    loads::{LOADS, STORES},
};
use crate::{
    encode::{i_type, j_type, r_type, SPECIAL},
    machine::*,
    rng::Rng,
};

const P: u64 = PAGE as u64;

/// Code lies in this page and the next, data in the page after them, and the last base leads to an absent page.
const CODE_PAGE: u64 = 0x7FFF;
const CODE_WORDS: u64 = 2 * P / 4;
const DATA: u64 = (CODE_PAGE + 2) * P;
const ABSENT: u64 = DATA + P;

/// Registers that code doesn't name as a destination by chance: bases of data, places in the code, a loop's counter.
const BASES: [u32; 4] = [24, 25, 26, 27];
const WAYS: [u32; 2] = [28, 29];
const COUNTER: u32 = 30;
const LINK: u32 = 31;

/// A hint of eight bytes lies behind its length at the first base.
const HINT: &[u8; 12] = b"\x00\x00\x00\x08a\xC3\xA9b \xE2\x82\xAC";
const MIDDLE: u64 = P / 2;

const J: u32 = 0x02;
const BGTZ: u32 = 0x07;
const ADDIU: u32 = 0x09;
const ORI: u32 = 0x0D;
const DADDU: u32 = 0x2D;
const SYSCALL: u32 = 0x0C;
const JR: u32 = 0x08;

/// A register that an instruction may read or write: any but the bases, the ways and the counter.
fn free(rng: &mut Rng) -> u32 {
    (LINK + rng.below(25) as u32) % 32
}

fn place(rng: &mut Rng) -> u64 {
    CODE_PAGE * P + 4 * rng.below(CODE_WORDS)
}

pub struct Programs {
    pub rng: Rng,
    operations: Vec<(u32, u32)>,
}

impl Programs {
    pub fn new(seed: u64) -> Self {
        Programs { rng: Rng::new(seed), operations: operations().collect() }
    }

    /// The next machine, with code all over its two pages.
    pub fn next(&mut self, m: &mut Machine) {
        self.lent(m);
        let mut code = Vec::new();
        while (code.len() as u64) < CODE_WORDS - 2 {
            self.piece(&mut code);
        }
        code.truncate(CODE_WORDS as usize - 2);
        // At the end everything begins again.
        code.extend([j_type(J, (CODE_PAGE * P >> 2) as u32), 0]);
        for (i, word) in code.iter().enumerate() {
            let at = i / 1024 * RECORD + 8 + i % 1024 * 4;
            m.pages[at..at + 4].copy_from_slice(&word.to_be_bytes());
        }
        for register in 1..32 {
            m.set_reg(register, self.rng.value());
        }
        redirect(&mut self.rng, m);
        inputs(&mut self.rng, m);
    }

    /// Three used records, one that a store can take, and a rest; two inputs; room for hints and output.
    fn lent(&mut self, m: &mut Machine) {
        let rng = &mut self.rng;
        m.state = [0; STATE];
        m.used = 3;
        m.pages.resize(4 * RECORD + 9, 0);
        rng.fill(&mut m.pages);
        for record in 0..3 {
            m.pages[record * RECORD..][..8].copy_from_slice(&(CODE_PAGE + record as u64).to_be_bytes());
        }
        for (buffer, length) in [(&mut m.hint, 64), (&mut m.output, 80), (&mut m.index, 96), (&mut m.data, 60)] {
            buffer.resize(length, 0);
            rng.fill(buffer);
        }
        for (record, start, length) in [(0, 3, 20u64), (1, 25, 35)] {
            m.index[48 * record + 32..][..8].copy_from_slice(&u64::to_be_bytes(start));
            m.index[48 * record + 40..][..8].copy_from_slice(&length.to_be_bytes());
        }
    }

    /// One instruction, or several that belong together. Most ways lead forwards: code by chance that jumps about
    /// soon runs in a small circle.
    fn piece(&mut self, code: &mut Vec<u32>) {
        match self.rng.below(64) {
            0..=43 => code.push(self.plain()),
            44..=53 => self.led_by(code, Self::branch),
            54..=58 => self.call(code),
            59..=62 => self.counted(code),
            _ => match self.rng.below(8) {
                0 => self.led_by(code, Self::register_jump),
                1 => code.push(self.rng.next() as u32),
                _ => self.led_by(code, Self::jump),
            },
        }
    }

    /// A branch or jump and what stands in its delay slot.
    fn led_by(&mut self, code: &mut Vec<u32>, lead: fn(&mut Self, u64) -> u32) {
        code.push(lead(self, code.len() as u64));
        code.push(self.plain());
    }

    fn jump(&mut self, at: u64) -> u32 {
        let ahead = CODE_PAGE * P + 4 * (at + 2 + self.rng.below(64)).min(CODE_WORDS - 2);
        let target = if self.rng.one_in(16) { place(&mut self.rng) } else { ahead };
        j_type(J + self.rng.below(2) as u32, (target >> 2) as u32)
    }

    /// Mostly to a known place; the link may hold anything by now.
    fn register_jump(&mut self, _: u64) -> u32 {
        let rs = if self.rng.one_in(4) { LINK } else { self.rng.pick(&WAYS) };
        r_type(SPECIAL, rs, 0, free(&mut self.rng), 0, JR + self.rng.below(2) as u32)
    }

    /// A loop that goes round a few times and then on, also when it was entered in its middle.
    fn counted(&mut self, code: &mut Vec<u32>) {
        let (times, body) = (1 + self.rng.below(20) as u32, 2 + self.rng.below(8) as u32);
        code.push(i_type(ORI, 0, COUNTER, times));
        for _ in 0..body {
            code.push(self.plain());
        }
        code.push(i_type(ADDIU, COUNTER, COUNTER, 0xFFFF));
        code.push(i_type(BGTZ, COUNTER, 0, (body + 2).wrapping_neg()));
        code.push(self.plain());
    }

    /// An instruction that leads to the next.
    fn plain(&mut self) -> u32 {
        let rng = &mut self.rng;
        let (rs, rt, rd) = (free(rng), free(rng), free(rng));
        match rng.below(8) {
            0..=3 => {
                let (opcode, funct) = rng.pick(&self.operations);
                r_type(opcode, rs, rt, rd, rng.register(), funct)
            }
            4..=5 => i_type(rng.pick(&IMMEDIATE_OPCODES), rs, rt, rng.immediate()),
            6 => i_type(rng.pick(&LOADS), rng.pick(&BASES), rt, rng.below(P) as u32),
            _ => i_type(rng.pick(&STORES), rng.pick(&BASES), rt, rng.below(P) as u32),
        }
    }

    /// A branch over a few instructions, now and then backwards, where it may never end.
    fn branch(&mut self, _: u64) -> u32 {
        let rng = &mut self.rng;
        let (opcode, field) = rng.pick(&BRANCHES);
        let (rs, rt) = (free(rng), field.unwrap_or_else(|| free(rng)));
        let words = if rng.one_in(64) { rng.below(40).wrapping_neg() } else { 1 + rng.below(12) };
        i_type(opcode, rs, rt, words as u32)
    }

    /// A system call with its arguments, mostly one that moves bytes of data.
    fn call(&mut self, code: &mut Vec<u32>) {
        let rng = &mut self.rng;
        let number = if rng.one_in(2) { rng.pick(&[READ, WRITE]) } else { rng.pick(&NUMBERS) };
        let (descriptor, base) = (rng.pick(&DESCRIPTORS), rng.pick(&BASES));
        let any = rng.below(40);
        let count = rng.pick(&[12, 12, 4, 8, any]);
        code.push(i_type(ORI, 0, 2, number as u32));
        code.push(i_type(ORI, 0, 4, descriptor as u32));
        code.push(r_type(SPECIAL, base, 0, 5, 0, DADDU));
        code.push(i_type(ORI, 0, 6, count as u32));
        code.push(r_type(SPECIAL, 0, 0, 0, 0, SYSCALL));
    }
}

/// Starts again somewhere in the code of a machine that can't go on, with some of its registers as new.
pub fn redirect(rng: &mut Rng, m: &mut Machine) {
    let pc = place(rng);
    m.set(PC, pc);
    m.set(NEXT_PC, pc.wrapping_add(4));
    m.state[EXITED] = 0;
    for _ in 0..4 {
        m.set_reg(free(rng), rng.value());
    }
    m.set_reg(0, 0);
    for (base, address) in BASES.into_iter().zip([DATA + MIDDLE, DATA, DATA + rng.below(P), ABSENT]) {
        m.set_reg(base, address);
    }
    for way in WAYS {
        m.set_reg(way, place(rng));
    }
    if rng.one_in(2) {
        inputs(rng, m);
    }
}

/// A known key, the beginning of its input, no hint held and one ready in the data.
fn inputs(rng: &mut Rng, m: &mut Machine) {
    let record = 48 * rng.index(2);
    m.state[KEY..KEY + 32].copy_from_slice(&m.index[record..record + 32]);
    m.set(OFFSET, rng.below(20));
    m.set(HINT_LENGTH, 0);
    let at = 2 * RECORD + 8 + MIDDLE as usize;
    m.pages[at..at + HINT.len()].copy_from_slice(HINT);
}
