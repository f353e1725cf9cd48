//! A machine with a program in it, before its first step.

use super::{elf::Program, list::Input};
use crate::machine::{Machine, HEAP, KEY, NEXT_PC, PAGE, PC, RECORD, RULES};

/// More than the programs use, and little enough to be compared whole after every step.
const RECORDS: usize = 12;
const HINT_ROOM: usize = 256;
const OUTPUT_ROOM: usize = 512;
/// What a step should leave alone, so that a change shows. The remainder behind the last whole record too.
const FILL: u8 = 0x5A;
const REMAINDER: usize = 5;

const STACK: u64 = 0x7FFF_FFF0;
const FIRST_HEAP: u64 = 0x1000_0000;
/// Document 01 compares with the Rust where the key is not all zero.
const FIRST_KEY: [u8; 32] = [1; 32];

pub fn machine(program: &Program, inputs: &[Input], rules: u8) -> Machine {
    let mut m = Machine {
        pages: vec![FILL; RECORDS * RECORD + REMAINDER],
        hint: vec![FILL; HINT_ROOM],
        output: vec![FILL; OUTPUT_ROOM],
        ..Machine::default()
    };
    for (address, bytes) in &program.parts {
        for (i, byte) in bytes.iter().enumerate() {
            put(&mut m, address + i as u64, *byte);
        }
    }
    for input in inputs {
        m.index.extend(input.key);
        m.index.extend((m.data.len() as u64).to_be_bytes());
        m.index.extend((input.bytes.len() as u64).to_be_bytes());
        m.data.extend(&input.bytes);
    }
    m.set(PC, program.entry);
    m.set(NEXT_PC, program.entry + 4);
    m.set(HEAP, FIRST_HEAP);
    m.set_reg(29, STACK);
    m.state[KEY..KEY + 32].copy_from_slice(&FIRST_KEY);
    m.state[RULES] = rules;
    m
}

/// Lays one byte, in the next record if its page is absent.
pub fn put(m: &mut Machine, address: u64, byte: u8) {
    let number = address / PAGE as u64;
    let start = m.page(number).unwrap_or_else(|| {
        let record = &mut m.pages[m.used * RECORD..][..RECORD];
        record[..8].copy_from_slice(&number.to_be_bytes());
        record[8..].fill(0);
        m.used += 1;
        (m.used - 1) * RECORD + 8
    });
    m.pages[start + address as usize % PAGE] = byte;
}
