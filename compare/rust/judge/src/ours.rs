//! Our machine and record checker, called through the C interface of their static library, which `build-library` at the
//! top of the repository writes.

use crate::{answer::Answer, checker::record::STEP_RECORD, machine::Machine};

/// The interface that the calls below are written for.
const VERSION: u64 = 1;

// A slice is handed over as its address and its length.
#[link(name = "rocchivanda", kind = "static")]
extern "C" {
    fn rocchivanda_version() -> u64;
    fn rocchivanda_check(record: *const u8, record_length: usize) -> u64;
    fn rocchivanda_step(
        state: *mut u8,
        state_length: usize,
        pages: *mut u8,
        pages_length: usize,
        hint: *mut u8,
        hint_length: usize,
        output: *mut u8,
        output_length: usize,
        index: *const u8,
        index_length: usize,
        data: *const u8,
        data_length: usize,
        answer: *mut u64,
        answer_length: usize,
    ) -> u64;
    fn rocchivanda_step_recorded(
        state: *mut u8,
        state_length: usize,
        pages: *mut u8,
        pages_length: usize,
        hint: *mut u8,
        hint_length: usize,
        output: *mut u8,
        output_length: usize,
        index: *const u8,
        index_length: usize,
        data: *const u8,
        data_length: usize,
        record: *mut u8,
        record_length: usize,
        answer: *mut u64,
        answer_length: usize,
    ) -> u64;
    fn rocchivanda_run(
        state: *mut u8,
        state_length: usize,
        pages: *mut u8,
        pages_length: usize,
        hint: *mut u8,
        hint_length: usize,
        output: *mut u8,
        output_length: usize,
        index: *const u8,
        index_length: usize,
        data: *const u8,
        data_length: usize,
        budget: u64,
        answer: *mut u64,
        answer_length: usize,
    ) -> u64;
}

/// What a call gives beside the machine: the answer, and how many steps count.
#[derive(Clone, Copy, Debug, Eq, PartialEq)]
pub struct Called {
    pub answer: Answer,
    pub count: u64,
}

/// Stops unless the library's interface is the one that is called here.
pub fn version() -> u64 {
    // Safe: it takes nothing and touches nothing.
    let version = unsafe { rocchivanda_version() };
    assert!(version == VERSION, "the library's interface is {version}, not {VERSION}");
    version
}

/// 0 for an accepted record, or the number of the refusal.
pub fn check(record: &[u8]) -> u64 {
    // Safe: the pointer comes with the length of the slice that it is taken from. So it is below, where none overlap.
    unsafe { rocchivanda_check(record.as_ptr(), record.len()) }
}

/// The answer's entries going in. What a call does not write would be no answer.
fn entries(m: &Machine) -> [u64; 4] {
    [m.used as u64, !0, !0, !0]
}

/// Reads the entries; values that stand for no answer are a fault of the library and stop the program.
fn called(m: &mut Machine, kind: u64, [used, first, second, count]: [u64; 4]) -> Called {
    m.used = used as usize;
    let numbers = (u8::try_from(kind), u32::try_from(first), u32::try_from(second));
    let answer = match numbers {
        (Ok(kind), Ok(first), Ok(second)) => Answer::from_numbers(kind, first, second),
        _ => None,
    };
    match answer {
        Some(answer) => Called { answer, count },
        None => panic!("our machine gives {kind} with {first} and {second}, which is no answer"),
    }
}

/// A call of the machine: what all three lend, then what only this one takes, and the entries.
macro_rules! call {
    ($function:ident, $m:ident $(, $more:expr)*) => {{
        let mut entries = entries($m);
        let kind = unsafe {
            $function(
                $m.state.as_mut_ptr(),
                $m.state.len(),
                $m.pages.as_mut_ptr(),
                $m.pages.len(),
                $m.hint.as_mut_ptr(),
                $m.hint.len(),
                $m.output.as_mut_ptr(),
                $m.output.len(),
                $m.index.as_ptr(),
                $m.index.len(),
                $m.data.as_ptr(),
                $m.data.len(),
                $($more,)*
                entries.as_mut_ptr(),
                entries.len(),
            )
        };
        called($m, kind, entries)
    }};
}

pub fn step(m: &mut Machine) -> Called {
    call!(rocchivanda_step, m)
}

/// The same with a record of the step, where it is one that can be recorded.
pub fn step_recorded(m: &mut Machine, record: &mut [u8; STEP_RECORD]) -> Called {
    call!(rocchivanda_step_recorded, m, record.as_mut_ptr(), record.len())
}

pub fn run(m: &mut Machine, budget: u64) -> Called {
    call!(rocchivanda_run, m, budget)
}
