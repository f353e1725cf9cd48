//! The two sides: a machine is run by ours and by the unchanged Rust, and each gives its time and its end.

use anyhow::Result;
use howitzer::{mips::HowitzerVM, state::State};
use judge::{
    lent::Lent,
    machine::{Machine, HINT_LENGTH, STEP},
    ours,
    programs::outcome::Outcome,
    rust::{at_once, decode, encode},
};
use std::{hint::black_box, time::Duration};

use crate::{
    clock::timed,
    memory::{Lookup, Store},
};

/// Runs a machine until it exits or has made so many steps. Only the run itself is timed.
pub type Side = fn(&Machine, u64) -> (Duration, End);

#[derive(Clone)]
/// What a run leaves, all that both sides have.
pub struct End {
    pub steps: u64,
    machine: Machine,
    outcome: Outcome,
}

impl End {
    /// The first thing in which two ends differ, in words.
    pub fn difference(&self, other: &End) -> Option<&'static str> {
        let (ours, others) = (&self.machine, &other.machine);
        let parts = [
            ("the number of steps", self.steps == other.steps),
            ("the state", ours.state == others.state),
            ("the used page records", ours.used == others.used),
            ("the pages", ours.pages == others.pages),
            ("the held hint", held(ours) == held(others)),
        ];
        let different = parts.into_iter().find_map(|(what, same)| (!same).then_some(what));
        different.or_else(|| self.outcome.difference(&other.outcome))
    }
}

/// The Rust keeps no byte of the hint buffer behind these.
fn held(m: &Machine) -> &[u8] {
    &m.hint[..m.get(HINT_LENGTH) as usize]
}

/// Ours, by `run`, which comes back at each write and hint.
pub fn ours(before: &Machine, budget: u64) -> (Duration, End) {
    let (mut machine, mut outcome) = (before.clone(), Outcome::default());
    let (time, steps) = timed(|| {
        let mut steps = 0;
        while steps < budget {
            let called = ours::run(&mut machine, budget - steps);
            steps += called.count;
            if !outcome.goes_on(&machine, called.answer) {
                break;
            }
        }
        steps
    });
    (time, End { steps, machine, outcome })
}

/// The Rust, with a way to find its pages.
pub fn rust<L: Lookup>(before: &Machine, budget: u64) -> (Duration, End) {
    let oracle = Lent { index: before.index.clone(), data: before.data.clone(), ..Lent::default() };
    let mut vm = HowitzerVM::new(State { memory: Store::<L>::of(before), ..State::default() }, oracle);
    decode(before, &mut vm.state);
    let last = before.get(STEP).saturating_add(budget);
    let (time, driven) = timed(|| drive(&mut vm, last));
    if let Err(error) = driven {
        panic!("the Rust stops: {error}");
    }
    let end = end(&mut vm, before);
    vm.discard_written();
    (time, end)
}

type Vm<L> = HowitzerVM<Store<L>, Lent>;

/// The only place where a step of this memory's machine is asked for, so that nothing keeps it from being inlined.
fn step<L: Lookup>(vm: &mut Vm<L>) -> Result<()> {
    at_once(vm.step(false))
}

/// The loop that is timed.
#[inline(never)]
fn drive<L: Lookup>(vm: &mut Vm<L>, last: u64) -> Result<()> {
    let mut step: fn(&mut Vm<L>) -> Result<()> = step;
    if L::CALLED {
        step = black_box(step);
    }
    while vm.state.step < last && !vm.state.exited {
        step(vm)?;
    }
    Ok(())
}

fn end<L: Lookup>(vm: &mut Vm<L>, before: &Machine) -> End {
    let mut machine = before.clone();
    encode(&vm.state, &mut machine);
    vm.state.memory.lay(&mut machine);
    machine.hint[..vm.state.last_hint.len()].copy_from_slice(&vm.state.last_hint);
    let mut outcome = Outcome {
        out: vm.std_out().to_vec(),
        err: vm.std_err().to_vec(),
        code: vm.state.exit_code as u32,
        ..Outcome::default()
    };
    for hint in vm.oracle().hints.get_mut() {
        outcome.hints.extend((hint.len() as u32).to_be_bytes());
        outcome.hints.extend(hint.bytes());
    }
    End { steps: vm.state.step.wrapping_sub(before.get(STEP)), machine, outcome }
}
