//! A program in the unchanged Rust, step by step.

use super::outcome::Outcome;
use crate::{
    answer::Answer,
    machine::Machine,
    rust::{Rust, Verdict},
};

/// Runs a program to its end. After each step `seen` is shown the machine and the answer.
pub fn run(m: Machine, mut seen: impl FnMut(&Machine, Answer)) -> (Outcome, u64) {
    let (mut rust, mut before, mut after) = (Rust::new(), m, Machine::default());
    let (mut outcome, mut steps) = (Outcome::default(), 0);
    loop {
        let answer = match rust.step(&before, &mut after) {
            Verdict::Inside(answer) => answer,
            Verdict::Outside(why) => panic!("step {steps} of a program is outside the compared domain: {why}"),
        };
        steps += 1;
        seen(&after, answer);
        if !outcome.goes_on(&after, answer) {
            return (outcome, steps);
        }
        std::mem::swap(&mut before, &mut after);
    }
}
