//! The examples of document 01 that speak of one step of the machine: 1 to 13.

use crate::{
    encode::{i_type, r_type, SPECIAL, SPECIAL2},
    machine::{Machine, HEAP, HI, LO, PAGE},
    qemu::trial::DATA,
};
use std::fmt;

/// Where the example looks afterwards.
#[derive(Clone, Copy)]
pub enum Look {
    Register,
    Hi,
    Lo,
    Heap,
    Memory,
}

#[derive(Clone, Copy, Eq, PartialEq)]
pub enum Says {
    Value(u64),
    Refused(u32),
}

impl fmt::Display for Says {
    fn fmt(&self, f: &mut fmt::Formatter<'_>) -> fmt::Result {
        match self {
            Says::Value(value) => write!(f, "{value:#x}"),
            Says::Refused(number) => write!(f, "refused {number}"),
        }
    }
}

pub struct Example {
    pub number: u32,
    pub text: &'static str,
    pub word: u32,
    pub registers: &'static [(u32, u64)],
    pub memory: Option<u64>,
    pub look: Look,
    pub rules0: Says,
    pub rules1: Says,
}

impl Example {
    /// QEMU has its own system calls, and leaves open what a division by zero gives.
    pub fn in_qemu(&self) -> bool {
        self.number != 13 && !matches!(self.rules1, Says::Refused(_))
    }

    /// What the machine holds at the place the example looks at.
    pub fn seen(&self, m: &Machine) -> u64 {
        match self.look {
            Look::Register => m.reg(DESTINATION),
            Look::Hi => m.get(HI),
            Look::Lo => m.get(LO),
            Look::Heap => m.get(HEAP),
            Look::Memory => {
                let at = m.page(DATUM / PAGE as u64).expect("a held page") + DATUM as usize % PAGE;
                u64::from_be_bytes(m.pages[at..at + 8].try_into().unwrap())
            }
        }
    }
}

/// Where the doubleword of an example lies.
pub const DATUM: u64 = DATA[1] + 0x1000;

const RS: u32 = 8;
const RT: u32 = 9;
const DESTINATION: u32 = 10;

const M: u64 = 0x0102_0304_0506_0708;
const LEAST: u64 = 0xFFFF_FFFF_8000_0000;

const fn special(funct: u32, shamt: u32) -> u32 {
    r_type(SPECIAL, RS, RT, DESTINATION, shamt, funct)
}

/// A load or store of the destination register at an offset from the base in RS.
const fn access(opcode: u32, offset: u32) -> u32 {
    i_type(opcode, RS, DESTINATION, offset)
}

const SYSCALL: u32 = r_type(SPECIAL, 0, 0, 0, 0, 0x0C);

use Says::{Refused, Value};

macro_rules! example {
    ($number:expr, $text:expr, $word:expr, $registers:expr, $memory:expr, $look:ident, $rules0:expr, $rules1:expr) => {
        Example {
            number: $number,
            text: $text,
            word: $word,
            registers: $registers,
            memory: $memory,
            look: Look::$look,
            rules0: $rules0,
            rules1: $rules1,
        }
    };
}

#[rustfmt::skip]
pub const EXAMPLES: [Example; 16] = [
    example!(1, "SLL 2 by 31", r_type(SPECIAL, 0, RT, DESTINATION, 31, 0x00), &[(RT, 2)], None, Register, Value(0xFFFF_FFFF_0000_0000), Value(0)),
    example!(2, "SRAV 1 by 32", special(0x07, 0), &[(RS, 32), (RT, 1)], None, Register, Value(0), Value(1)),
    example!(3, "SUBU", special(0x23, 0), &[(RS, LEAST), (RT, 1)], None, Register, Value(0xFFFF_FFFF_7FFF_FFFF), Value(0x7FFF_FFFF)),
    example!(4, "DIVU, lo", r_type(SPECIAL, RS, RT, 0, 0, 0x1B), &[(RS, 0xFFFF_FFFF), (RT, 1)], None, Lo, Value(0xFFFF_FFFF), Value(u64::MAX)),
    example!(5, "DMULT, hi", r_type(SPECIAL, RS, RT, 0, 0, 0x1C), &[(RS, u64::MAX), (RT, 1)], None, Hi, Value(0), Value(u64::MAX)),
    example!(6, "DIV least by -1, lo", r_type(SPECIAL, RS, RT, 0, 0, 0x1A), &[(RS, LEAST), (RT, u64::MAX)], None, Lo, Refused(6), Value(LEAST)),
    example!(7, "DIV by 2^32", r_type(SPECIAL, RS, RT, 0, 0, 0x1A), &[(RS, 1), (RT, 0x1_0000_0000)], None, Lo, Refused(5), Refused(5)),
    example!(8, "funct 0x20 on 0", r_type(SPECIAL2, RS, DESTINATION, DESTINATION, 0, 0x20), &[(RS, 0)], None, Register, Value(32), Value(32)),
    example!(8, "funct 0x21 on 0", r_type(SPECIAL2, RS, DESTINATION, DESTINATION, 0, 0x21), &[(RS, 0)], None, Register, Value(0), Value(0)),
    example!(9, "LDR, offset 7", access(0x1B, 7), &[(RS, DATUM), (DESTINATION, 0xF000_0000_0000_0000)], Some(M), Register, Value(0xF102_0304_0506_0708), Value(M)),
    example!(10, "LWL, offset 1", access(0x22, 1), &[(RS, DATUM), (DESTINATION, 0xAABB_CCDD)], Some(M), Register, Value(0x0607_08DD), Value(0x0203_04DD)),
    example!(11, "LWR, offset 5", access(0x26, 5), &[(RS, DATUM), (DESTINATION, 0)], Some(M), Register, Value(0x0304_0506), Value(0x0506)),
    example!(12, "SWR, offset 5", access(0x2E, 5), &[(RS, DATUM), (DESTINATION, 0x1122_3344)], Some(0), Memory, Value(0x0000_1122_3344_0000), Value(0x3344_0000)),
    example!(13, "mapping 0 bytes", SYSCALL, &[(2, 5009), (4, 0), (5, 0)], None, Heap, Value(0), Value(0)),
    example!(13, "mapping 1 byte", SYSCALL, &[(2, 5009), (4, 0), (5, 1)], None, Heap, Value(4096), Value(4096)),
    example!(13, "mapping 4,096 bytes", SYSCALL, &[(2, 5009), (4, 0), (5, 4096)], None, Heap, Value(4096), Value(4096)),
];
