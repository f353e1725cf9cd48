//! A program in our machine: step by step beside the Rust, recorded, and by `run`.

use super::{
    changed::Made,
    outcome::Outcome,
    reasons::{is_outcome, reason, Reason},
};
use crate::{
    answer::Answer,
    checker::record::{StepRecord, STEP_RECORD},
    compare::difference,
    coverage::name,
    machine::Machine,
    ours,
    rust::{Rust, Verdict},
};
use std::collections::BTreeMap;

/// Of one call of `run`: little enough to be used up often.
const BUDGET: u64 = 1009;

/// So many records of each instruction are changed in any case, and those of all calls.
const FIRST: u64 = 8;

/// Our machine beside another one that is a step ahead.
pub struct Beside {
    pub m: Machine,
    steps: u64,
}

impl Beside {
    pub fn new(m: Machine) -> Self {
        Beside { m, steps: 0 }
    }

    /// Makes the step, and stops unless the answer and every byte are the same.
    pub fn follow(&mut self, other: &Machine, expected: Answer) {
        let called = ours::step(&mut self.m);
        assert_eq!((called.answer, called.count), (expected, 1), "the answer at step {}", self.steps);
        if let Some(difference) = difference(other, &self.m) {
            panic!("at step {}: {difference}", self.steps);
        }
        self.steps += 1;
    }
}

pub fn step_by_step(mut m: Machine) -> (Outcome, Machine, u64) {
    let (mut outcome, mut steps) = (Outcome::default(), 0);
    loop {
        let called = ours::step(&mut m);
        assert_eq!(called.count, 1, "an unrefused step counts");
        steps += 1;
        if !outcome.goes_on(&m, called.answer) {
            return (outcome, m, steps);
        }
    }
}

/// By `run`, which comes back at each write and hint, and when its budget is used up.
pub fn by_run(mut m: Machine) -> (Outcome, Machine, u64) {
    let (mut outcome, mut steps) = (Outcome::default(), 0);
    loop {
        let called = ours::run(&mut m, BUDGET);
        steps += called.count;
        if !outcome.goes_on(&m, called.answer) {
            return (outcome, m, steps);
        }
    }
}

/// What became of the records and of their changed copies.
#[derive(Default)]
pub struct Tally {
    pub records: u64,
    pub wide: u64,
    pub sampled: u64,
    pub refused: BTreeMap<u64, u64>,
    pub accepted: BTreeMap<Reason, u64>,
    /// Of the accepted, those that the Rust too calls a step.
    pub by_the_rust: u64,
    /// Steps of each instruction, by its name in isa.rs.
    pub instructions: BTreeMap<String, u64>,
}

pub struct Recorder {
    rust: Rust,
    made: Made,
    pub sample: u64,
    pub tally: Tally,
}

impl Recorder {
    pub fn new(sample: u64) -> Self {
        Recorder { rust: Rust::new(), made: Made::default(), sample, tally: Tally::default() }
    }

    /// Runs a program with each step recorded, and has each record checked.
    pub fn run(&mut self, mut m: Machine) -> (Outcome, Machine) {
        let (mut outcome, mut before) = (Outcome::default(), Machine::default());
        // No record is like this: its spare bytes are zero.
        const UNTOUCHED: [u8; STEP_RECORD] = [0xEE; STEP_RECORD];
        loop {
            before.copy_from(&m);
            let mut bytes = UNTOUCHED;
            let answer = ours::step_recorded(&mut m, &mut bytes).answer;
            let expected = StepRecord::of(&before, &m);
            let name = name(expected.word()).expect("an instruction that was carried out");
            let times = self.tally.instructions.entry(name).or_default();
            *times += 1;
            let rare = *times <= FIRST || expected.call().is_some();
            if expected.is_wide() {
                assert!(bytes == UNTOUCHED, "a wide step is not recorded");
                self.tally.wide += 1;
            } else {
                assert!(bytes == expected.bytes, "the record of a step: {before:?}");
                assert_eq!(ours::check(&bytes), 0, "the record of a step is accepted: {bytes:02x?}");
                if rare || self.tally.records % self.sample == 0 {
                    self.change(&expected);
                }
                self.tally.records += 1;
            }
            if !outcome.goes_on(&m, answer) {
                return (outcome, m);
            }
        }
    }

    /// Each bit of a record, changed alone.
    fn change(&mut self, record: &StepRecord) {
        self.tally.sampled += 1;
        for bit in 0..8 * STEP_RECORD {
            let byte = bit / 8;
            let changed = record.with(byte, &[record.bytes[byte] ^ 0x80 >> bit % 8]);
            let number = ours::check(&changed.bytes);
            if number != 0 {
                *self.tally.refused.entry(number).or_default() += 1;
            } else {
                let reason = reason(record, &changed, byte);
                let reason = reason.unwrap_or_else(|| panic!("accepted without a reason, bit {bit} of {record:02x?}"));
                *self.tally.accepted.entry(reason).or_default() += 1;
            }
            self.judge(record, &changed, byte, number == 0);
        }
    }

    /// Holds the checker's word against those who make the step. Under rules 0 that is the Rust. Under rules 1 it is our
    /// own step, and what is accepted is put to the Rust as rules 0, which are mostly the same.
    fn judge(&mut self, record: &StepRecord, changed: &StepRecord, byte: usize, accepted: bool) {
        if is_outcome(byte) {
            assert!(!accepted, "a second outcome of one step, byte {byte} of {record:02x?}");
        } else if record.rules() == 0 {
            let is_step = self.is_step_of_the_rust(changed);
            assert_eq!(is_step, accepted, "the Rust and the checker, byte {byte} of {changed:02x?}");
            self.tally.by_the_rust += is_step as u64;
        } else {
            let is_step = self.made.is_step(changed, |before, after| {
                after.copy_from(before);
                Some(ours::step(after).answer)
            });
            assert_eq!(is_step, accepted, "our step and the checker, byte {byte} of {changed:02x?}");
            let same = accepted && self.is_step_of_the_rust(&changed.with_other_rules());
            self.tally.by_the_rust += same as u64;
        }
    }

    fn is_step_of_the_rust(&mut self, record: &StepRecord) -> bool {
        let rust = &mut self.rust;
        self.made.is_step(record, |before, after| match rust.step(before, after) {
            Verdict::Inside(answer) => Some(answer),
            Verdict::Outside(_) => None,
        })
    }
}
