//! The machine and the checker from Rust: one step with its record, the checker's answer, and its answer to a changed record.

#[rustfmt::skip]
extern "C" {
    fn rocchivanda_check(record: *const u8, record_size: usize) -> u64;
    fn rocchivanda_step_recorded(
        state: *mut u8, state_size: usize, pages: *mut u8, pages_size: usize, hint: *mut u8, hint_size: usize,
        output: *mut u8, output_size: usize, index: *const u8, index_size: usize, data: *const u8, data_size: usize,
        record: *mut u8, record_size: usize, answer: *mut u64, answer_size: usize,
    ) -> u64;
}

fn check(record: &[u8]) -> u64 {
    // Safe: the pointer comes with the length of its slice. So it is below, where no slice overlaps another.
    unsafe { rocchivanda_check(record.as_ptr(), record.len()) }
}

fn main() {
    let (mut state, mut pages, mut record) = ([0u8; 360], [0u8; 4104], [0u8; 752]);
    let (mut hint, mut output, none) = ([0u8; 1], [0u8; 1], [0u8; 0]);
    let mut answer = [1u64, 0, 0, 0]; // one page record is used: page 0
    pages[8..12].copy_from_slice(&[0x24, 0x08, 0x00, 0x07]); // at address 0: addiu r8, r0, 7
    state[271] = 4; // next_pc is 4
    state[354] = 1; // rules 1

    #[rustfmt::skip]
    let kind = unsafe {
        rocchivanda_step_recorded(
            state.as_mut_ptr(), state.len(), pages.as_mut_ptr(), pages.len(), hint.as_mut_ptr(), hint.len(),
            output.as_mut_ptr(), output.len(), none.as_ptr(), 0, none.as_ptr(), 0,
            record.as_mut_ptr(), record.len(), answer.as_mut_ptr(), answer.len(),
        )
    };
    println!("kind {kind}, register 8 is {}", state[71]);
    println!("its record: {}", check(&record));
    record[360 + 71] ^= 1; // register 8 of the new state
    println!("one bit changed: {}", check(&record));
}
