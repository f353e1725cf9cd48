//! The unchanged Rust and our machine side by side, stepping from the same machine under rules 0.

use crate::{
    answer::Answer,
    cases::Case,
    compare::difference,
    machine::{Machine, STEP},
    ours::{self, Called},
    rust::{Rust, Verdict},
    show,
    shrink::smallest,
};
use std::mem::swap;

#[derive(Default)]
pub struct Pair {
    rust: Rust,
    /// What both stand on. Between steps `mine`, which ours steps where it is, has the same bytes.
    before: Machine,
    mine: Machine,
    /// The machine after the step, as the Rust has it.
    after: Machine,
    /// Whether the Rust has a cache of inputs that belongs to this machine.
    goes_on: bool,
}

impl Pair {
    /// Takes a machine to stand on; the caller's buffers are those of an earlier one then.
    pub fn stand(&mut self, m: &mut Machine) {
        swap(&mut self.before, m);
        self.mine.copy_from(&self.before);
        self.goes_on = false;
    }

    pub fn machine(&self) -> &Machine {
        &self.before
    }

    /// Makes the same change on both sides, once by each.
    pub fn change(&mut self, mut change: impl FnMut(&mut Machine)) {
        change(&mut self.before);
        change(&mut self.mine);
    }

    /// One step of each. Gives the Rust's verdict and, where both stepped, the answer; or tells where they part.
    pub fn step(&mut self) -> Result<(Verdict, Option<Answer>), String> {
        let (verdict, expected) = self.judge();
        let Some(answer) = expected else { return Ok((verdict, None)) };
        let called = ours::step(&mut self.mine);
        match self.parted(answer, called) {
            Some(text) => Err(text),
            None => {
                swap(&mut self.before, &mut self.after);
                Ok((verdict, expected))
            }
        }
    }

    /// The Rust's verdict; and, with `after`, what is expected of ours. Where the Rust has no answer that is document
    /// 01's refusal, if it has one.
    fn judge(&mut self) -> (Verdict, Option<Answer>) {
        let verdict = match self.goes_on {
            true => self.rust.step_on(&self.before, &mut self.after),
            false => self.rust.step(&self.before, &mut self.after),
        };
        self.goes_on = true;
        let refusal = match verdict {
            Verdict::Inside(answer) => return (verdict, Some(answer)),
            Verdict::Outside(why) => why.refusal(),
        };
        self.after.copy_from(&self.before);
        if refusal != Some(1) {
            self.after.set(STEP, self.before.get(STEP).wrapping_add(1));
        }
        (verdict, refusal.map(|number| Answer::Refused { number }))
    }

    fn parted(&self, answer: Answer, called: Called) -> Option<String> {
        let counts = !self.before.exited() && !matches!(answer, Answer::Refused { .. });
        let expected = Called { answer, count: counts as u64 };
        if called != expected {
            return Some(format!("expected {expected:?}, got {called:?}"));
        }
        difference(&self.after, &self.mine)
    }

    /// A run of ours from a machine on which both stood before: it must end where the steps have led. Otherwise both
    /// ends are shown, and where they part is told.
    pub fn run(&self, start: &Machine, budget: u64, expected: Called) -> Result<(), String> {
        let mut end = start.clone();
        let called = ours::run(&mut end, budget);
        let parted = match called == expected {
            true => difference(&self.before, &end),
            false => Some(format!("expected {expected:?}, got {called:?}")),
        };
        let Some(text) = parted else { return Ok(()) };
        let case = Case { machine: start.clone(), ..Case::default() };
        println!("the start, and the machine expected after a run of {budget}:\n");
        show::case(&case, expected.answer, &self.before);
        println!("\nthe same start, and our machine after it:\n");
        show::case(&case, called.answer, &end);
        Err(text)
    }

    /// Whether a step of its own from this machine parts the two.
    fn parts(&mut self, m: &Machine) -> bool {
        self.stand(&mut m.clone());
        self.step().is_err()
    }

    /// Shows the smallest case made from this machine in which the two part, with both machines after it.
    pub fn show(&mut self, from: &Machine) {
        let small = match self.parts(from) {
            true => smallest(from, |m| self.parts(m)),
            false => from.clone(),
        };
        self.stand(&mut small.clone());
        let (verdict, expected) = self.judge();
        let called = ours::step(&mut self.mine);
        let case = Case { machine: small, ..Case::default() };
        println!("\nthe smallest case, and the machine expected after it ({verdict:?}):\n");
        show::case(&case, expected.unwrap_or(Answer::Stepped), &self.after);
        println!("\nthe same case, and our machine after it ({called:?}):\n");
        show::case(&case, called.answer, &self.mine);
    }
}
