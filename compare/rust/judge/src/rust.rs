//! The judge for rules 0: one step of the unchanged Rust, from document 01's bytes to document 01's bytes.

use howitzer::{memory::Memory, mips::HowitzerVM, state::State};
use std::{
    cell::Cell,
    future::Future,
    panic::{catch_unwind, set_hook, take_hook, AssertUnwindSafe},
    pin::Pin,
    ptr,
    sync::Once,
    task::{Context, Poll, RawWaker, RawWakerVTable, Waker},
};

use crate::{
    answer::Answer,
    domain::{outside, why_panicked, Why},
    lent::{Lent, NO_INPUT},
    machine::*,
    records::{Records, NO_RECORD},
};

type Vm = HowitzerVM<Records, Lent>;

#[derive(Clone, Copy, Debug, Eq, PartialEq)]
pub enum Verdict {
    Inside(Answer),
    Outside(Why),
}

pub struct Rust {
    vm: Vm,
}

impl Default for Rust {
    fn default() -> Self {
        Self::new()
    }
}

impl Rust {
    pub fn new() -> Self {
        assert!(!cfg!(debug_assertions), "document 01 compares with overflow checks off: build with --release");
        hush_panics();
        Rust { vm: fresh() }
    }

    /// Steps once. Inside the compared domain `after` is then the machine after the step.
    pub fn step(&mut self, before: &Machine, after: &mut Machine) -> Verdict {
        self.vm.proof_meta.last_preimage_key = [0; 32];
        self.vm.proof_meta.last_preimage.clear();
        self.step_on(before, after)
    }

    /// The same for a machine that goes on, with the same index and data: the Rust keeps its cache of inputs.
    pub fn step_on(&mut self, before: &Machine, after: &mut Machine) -> Verdict {
        if let Some(why) = outside(before) {
            return Verdict::Outside(why);
        }
        self.load(before);
        let vm = &mut self.vm;
        HUSHED.with(|hushed| hushed.set(true));
        let stepped = catch_unwind(AssertUnwindSafe(|| at_once(vm.step(false))));
        HUSHED.with(|hushed| hushed.set(false));
        let verdict = match stepped {
            Err(_) => self.panicked(before),
            Ok(Err(error)) => self.refused(before, after, error.as_str()),
            Ok(Ok(())) => self.stepped(before, after),
        };
        self.vm.discard_written();
        verdict
    }

    /// Everything that a step can see is as fresh as in a new machine, but for the cache of inputs.
    fn load(&mut self, m: &Machine) {
        let oracle = self.vm.oracle();
        oracle.index.clone_from(&m.index);
        oracle.data.clone_from(&m.data);
        oracle.hints.get_mut().clear();
        let memory = &mut self.vm.state.memory;
        memory.used = m.used;
        memory.pages.clone_from(&m.pages);
        decode(m, &mut self.vm.state);
    }

    fn panicked(&mut self, before: &Machine) -> Verdict {
        self.vm.discard_written();
        self.vm = fresh();
        match why_panicked(before) {
            Some(why) => Verdict::Outside(why),
            None => panic_out(before, "the Rust panics where no known condition holds"),
        }
    }

    fn refused(&mut self, before: &Machine, after: &mut Machine, error: &str) -> Verdict {
        let number = match refusal(error) {
            Ok(number) => number,
            Err(Some(why)) => return Verdict::Outside(why),
            Err(None) => panic_out(before, &format!("the Rust gives an error that stands for no refusal: {error}")),
        };
        if number == 13 {
            // The Rust has kept the appended hint; document 01 compares only the refusal.
            after.copy_from(before);
            after.set(STEP, before.get(STEP).wrapping_add(1));
        } else {
            after.copy_but_pages(before);
            self.lay(after);
        }
        Verdict::Inside(Answer::Refused { number })
    }

    fn stepped(&mut self, before: &Machine, after: &mut Machine) -> Verdict {
        let answer = self.answer(before);
        if let Answer::Hint { count } = answer {
            if count as usize > before.output.len() {
                return Verdict::Outside(Why::Refusal9);
            }
        }
        after.copy_but_pages(before);
        self.lay(after);
        Verdict::Inside(answer)
    }

    fn answer(&mut self, before: &Machine) -> Answer {
        if self.vm.state.exited {
            return Answer::Exited { code: self.vm.state.exit_code as u32 };
        }
        let hints = self.vm.oracle().hints.get_mut();
        assert!(hints.len() <= 1, "one write hands out at most one hint");
        if let Some(hint) = hints.first() {
            return Answer::Hint { count: hint.len() as u32 };
        }
        match before.call() {
            Some(Call { number: 5001, descriptor: 1, .. }) => wrote(1, self.vm.std_out()),
            Some(Call { number: 5001, descriptor: 2, .. }) => wrote(2, self.vm.std_err()),
            _ => Answer::Stepped,
        }
    }

    /// Lays what the Rust holds into document 01's bytes; `after` comes with those from before, but for the pages.
    fn lay(&mut self, after: &mut Machine) {
        encode(&self.vm.state, after);
        std::mem::swap(&mut after.pages, &mut self.vm.state.memory.pages);
        after.used = self.vm.state.memory.used;
        put_front(&mut after.output, self.vm.std_out());
        put_front(&mut after.output, self.vm.std_err());
        let handed = self.vm.oracle().hints.get_mut().pop();
        match handed {
            None => put_front(&mut after.hint, &self.vm.state.last_hint),
            Some(hint) => {
                put_front(&mut after.output, hint.as_bytes());
                put_front(&mut after.hint, &(hint.len() as u32).to_be_bytes());
                put_front(&mut after.hint[4..], hint.as_bytes());
            }
        }
    }
}

thread_local! {
    static HUSHED: Cell<bool> = Cell::new(false);
}

/// Panics of the Rust are counted, not shown. Our own are shown as ever.
fn hush_panics() {
    static ONCE: Once = Once::new();
    ONCE.call_once(|| {
        let usual = take_hook();
        set_hook(Box::new(move |panic| {
            if !HUSHED.with(Cell::get) {
                usual(panic);
            }
        }));
    });
}

fn fresh() -> Vm {
    Vm::new(State::default(), Lent::default())
}

/// The step waits for nothing: its oracle's futures are ready. So one poll is the whole of it.
pub fn at_once<F: Future>(mut future: F) -> F::Output {
    // The future lives on this frame and is not moved after it is pinned.
    let future = unsafe { Pin::new_unchecked(&mut future) };
    let waker = unsafe { Waker::from_raw(no_waker()) };
    match future.poll(&mut Context::from_waker(&waker)) {
        Poll::Ready(output) => output,
        Poll::Pending => unreachable!("every future here is ready"),
    }
}

fn no_waker() -> RawWaker {
    const NOTHING: RawWakerVTable = RawWakerVTable::new(|_| no_waker(), |_| {}, |_| {}, |_| {});
    RawWaker::new(ptr::null(), &NOTHING)
}

/// Document 01's number for an error of the Rust; or why it is outside; or nothing for an unknown one.
fn refusal(error: &str) -> Result<u32, Option<Why>> {
    const NUMBERS: [(&str, u32); 9] = [
        ("Address is not 4-byte aligned", 2),
        ("Invalid Opcode", 3),
        ("Invalid opcode BEQL", 3),
        ("Invalid SpecialFunction", 3),
        ("Invalid Special2Function", 3),
        ("Invalid RegImmFunction", 3),
        ("Unexpected branch in delay slot", 4),
        ("Unexpected jump in delay slot", 4),
        ("TRAP: Division by zero", 5),
    ];
    let known = NUMBERS.iter().find(|(text, _)| error.starts_with(text));
    match error {
        _ if known.is_some() => Ok(known.unwrap().1),
        _ if error.starts_with("invalid utf-8") || error.starts_with("incomplete utf-8") => Ok(13),
        NO_RECORD => Err(Some(Why::Refusal8)),
        NO_INPUT => Err(Some(Why::Fetching)),
        _ => Err(None),
    }
}

fn wrote(stream: u32, bytes: &[u8]) -> Answer {
    Answer::Wrote { stream, count: bytes.len() as u32 }
}

fn put_front(buffer: &mut [u8], bytes: &[u8]) {
    buffer[..bytes.len()].copy_from_slice(bytes);
}

/// Document 01's state for the Rust, all but its memory; and back.
pub fn decode<M: Memory>(m: &Machine, s: &mut State<M>) {
    for (register, value) in s.registers.iter_mut().enumerate() {
        *value = m.reg(register as u32);
    }
    s.preimage_key.copy_from_slice(m.key());
    (s.pc, s.next_pc, s.hi, s.lo) = (m.get(PC), m.get(NEXT_PC), m.get(HI), m.get(LO));
    (s.heap, s.step, s.preimage_offset) = (m.get(HEAP), m.get(STEP), m.get(OFFSET));
    (s.exited, s.exit_code) = (m.exited(), m.state[CODE]);
    s.last_hint.clear();
    s.last_hint.extend_from_slice(&m.hint[..m.get(HINT_LENGTH) as usize]);
}

pub fn encode<M: Memory>(s: &State<M>, m: &mut Machine) {
    for (register, value) in s.registers.iter().enumerate() {
        m.set_reg(register as u32, *value);
    }
    let numbers = [
        (PC, s.pc),
        (NEXT_PC, s.next_pc),
        (HI, s.hi),
        (LO, s.lo),
        (HEAP, s.heap),
        (STEP, s.step),
        (OFFSET, s.preimage_offset),
        (HINT_LENGTH, s.last_hint.len() as u64),
    ];
    for (offset, value) in numbers {
        m.set(offset, value);
    }
    m.state[KEY..KEY + 32].copy_from_slice(&s.preimage_key[..]);
    m.state[EXITED] = s.exited as u8;
    m.state[CODE] = s.exit_code;
}

/// A finding: something that document 01 does not foresee. Shows the whole case and stops.
fn panic_out(before: &Machine, text: &str) -> ! {
    eprintln!("{text}\n{before:?}");
    std::process::exit(1)
}
