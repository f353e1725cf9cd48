//! One instruction under QEMU: from a case to the driver's job, and from its outcome to the machine after the step.

use super::driver::{Job, Outcome};
use crate::{
    answer::Answer,
    cases::Case,
    encode::{i_type, j_type},
    machine::*,
};

/// Regions that the driver maps: two megabytes each, with the end of a jump's segment in the middle.
pub const CODE: [u64; 4] = [0x0FF0_0000, 0x7FF0_0000, 0xFFF0_0000, 0x12_3FF0_0000];
pub const DATA: [u64; 4] = [0x2FF0_0000, 0xBFF0_0000, 0x1_FFF0_0000, 0x45_6FF0_0000];
pub const REGION: u64 = 0x20_0000;

/// The way back lies in the first and in the last page of each region.
const LAST_PAGE: u64 = REGION - 0x1000;
const SEGMENT: u64 = 0x1000_0000;

/// Marks that laid code clears: behind the instruction, at its target, in its delay slot.
const BEHIND: usize = 0;
const TARGET: usize = 1;
const SLOT: usize = 2;
const MARKS: u32 = 0x4510;

const J: u32 = 0x02;
const SD: u32 = 0x3F;

/// How the program comes to the instruction, and where it goes from there.
#[derive(Clone, Copy, Debug)]
pub enum Flow {
    /// To the instruction behind it.
    Next,
    /// The same, after a load-linked of the same address.
    Linked { load: u32 },
    /// To its target or to the instruction behind its delay slot.
    Branch { target: u64 },
    /// It stands in the delay slot of a jump to the target.
    InSlot { target: u64 },
}

#[derive(Clone)]
pub struct Trial {
    pub case: Case,
    pub flow: Flow,
    /// The doubleword that the instruction touches.
    pub touched: Option<u64>,
}

/// QEMU raised Integer Overflow, as the manual has it. Document 01 wraps, by choice, so there is nothing to compare.
#[derive(Clone, Copy, Debug, Eq, PartialEq)]
pub struct Overflow;

impl Trial {
    pub fn job(&self) -> Job {
        let m = &self.case.machine;
        let mut job = Job::default();
        for register in 1..32 {
            job.register(register, m.reg(register));
        }
        job.hi_lo(m.get(HI), m.get(LO));
        let (address, bytes) = self.window();
        job.window(address, bytes);
        self.lay(&mut job);
        job
    }

    /// The touched doubleword and its neighbours, or some place that nobody touches.
    fn window(&self) -> (u64, [u8; 24]) {
        let address = self.touched.map_or(DATA[0], |touched| touched - 8);
        let mut bytes = [0; 24];
        for (i, byte) in bytes.iter_mut().enumerate() {
            *byte = self.case.machine.byte(address + i as u64);
        }
        (address, bytes)
    }

    fn lay(&self, job: &mut Job) {
        let m = &self.case.machine;
        let (pc, word) = (m.get(PC), m.word(m.get(PC)));
        job.lay(pc, word);
        job.start(pc);
        match self.flow {
            Flow::Next => arrive(job, pc + 4, BEHIND),
            Flow::Linked { load } => {
                // The same base and offset, into register 0.
                job.lay(pc - 4, load << 26 | word & 0x03E0_FFFF);
                job.start(pc - 4);
                arrive(job, pc + 4, BEHIND);
            }
            Flow::Branch { target } => {
                job.lay(pc + 4, clear(SLOT));
                arrive(job, pc + 8, BEHIND);
                arrive(job, target, TARGET);
            }
            Flow::InSlot { target } => {
                job.lay(pc - 4, j_type(J, (target >> 2) as u32));
                job.start(pc - 4);
                arrive(job, target, TARGET);
            }
        }
    }

    /// The machine after the step, as QEMU shows it.
    pub fn judge(&self, outcome: &Outcome, after: &mut Machine) -> Result<Answer, Overflow> {
        let before = &self.case.machine;
        after.copy_from(before);
        after.set(STEP, before.get(STEP).wrapping_add(1));
        match outcome.signal() {
            0 => self.arrived(outcome, after),
            8 => return Err(Overflow),
            // A bus error: the address is off alignment. Nothing may have changed.
            10 => {
                self.same(outcome);
                return Ok(Answer::Refused { number: 7 });
            }
            signal => panic!("signal {signal} at {:08x?}", before.instruction()),
        }
        for register in 0..32 {
            after.set_reg(register, outcome.register(register));
        }
        after.set(HI, outcome.hi());
        after.set(LO, outcome.lo());
        self.touch(outcome, after);
        Ok(Answer::Stepped)
    }

    fn same(&self, outcome: &Outcome) {
        let m = &self.case.machine;
        assert!((0..32).all(|register| outcome.register(register) == m.reg(register)), "a trap changes no register");
        assert!(outcome.hi() == m.get(HI) && outcome.lo() == m.get(LO), "a trap changes neither hi nor lo");
        assert!(outcome.window() == self.window().1, "a trap changes no memory");
    }

    /// pc and next_pc, from the places that the program passed.
    fn arrived(&self, outcome: &Outcome, after: &mut Machine) {
        let (pc, next) = (self.case.machine.get(PC), self.case.machine.get(NEXT_PC));
        let passed = [BEHIND, TARGET, SLOT].map(|mark| outcome.reached(mark));
        let then = match (self.flow, passed) {
            (Flow::Next | Flow::Linked { .. }, [true, false, false]) => pc + 8,
            (Flow::Branch { .. }, [true, false, true]) => pc + 8,
            (Flow::Branch { target }, [false, true, true]) => target,
            (Flow::InSlot { target }, [false, true, false]) => target + 4,
            other => panic!("the program went astray: {other:?}"),
        };
        after.set(PC, next);
        after.set(NEXT_PC, then);
    }

    /// Lays the touched doubleword into the pages. Its neighbours must be as they were.
    fn touch(&self, outcome: &Outcome, after: &mut Machine) {
        let (old, new) = (self.window().1, outcome.window());
        assert!(old[..8] == new[..8] && old[16..] == new[16..], "only the touched doubleword changes");
        match self.touched {
            None => assert!(old == new, "an instruction that touches nothing changes no memory"),
            Some(address) => {
                let page = after.page(address / PAGE as u64).expect("the touched page is held");
                let at = page + address as usize % PAGE;
                after.pages[at..at + 8].copy_from_slice(&new[8..16]);
            }
        }
    }
}

fn clear(mark: usize) -> u32 {
    i_type(SD, 0, 0, MARKS + 8 * mark as u32)
}

/// A jump to the way back that clears a mark in its delay slot.
fn arrive(job: &mut Job, at: u64, mark: usize) {
    job.lay(at, j_type(J, (way_back(at) >> 2) as u32));
    job.lay(at + 4, clear(mark));
}

/// The way back within reach of a jump at this address: its delay slot says in which segment.
fn way_back(at: u64) -> u64 {
    let base = region(at);
    if (at + 4) / SEGMENT == base / SEGMENT {
        base
    } else {
        base + LAST_PAGE
    }
}

/// The first address of the code region that holds this one.
pub fn region(at: u64) -> u64 {
    CODE.into_iter().find(|base| (*base..base + REGION).contains(&at)).expect("an address in a code region")
}
