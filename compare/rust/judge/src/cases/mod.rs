//! Cases: machines before a step. Each module makes those of one kind, either along a fixed enumeration or by chance.

pub mod alu;
pub mod calls;
pub mod fixed;
mod hints;
mod input;
pub mod jumps;
pub mod loads;
mod other;
pub mod program;
pub mod random;
pub mod texts;
mod writes;

use crate::machine::Machine;

/// A machine before a step, the byte its buffers were filled with, and which kind of case it is.
#[derive(Clone, Debug, Default)]
pub struct Case {
    pub class: u8,
    pub fill: u8,
    pub machine: Machine,
}

pub const ALU: u8 = 0;
pub const IMMEDIATE: u8 = 1;
pub const HI_LO: u8 = 2;
pub const LOAD: u8 = 3;
pub const STORE: u8 = 4;
pub const BRANCH: u8 = 5;
pub const JUMP: u8 = 6;
pub const UNKNOWN: u8 = 7;
pub const FETCH: u8 = 8;
pub const CALL: u8 = 9;
pub const INPUT: u8 = 10;
pub const WRITE: u8 = 11;
pub const HINT: u8 = 12;
pub const KEY_WRITE: u8 = 13;
pub const EXITED: u8 = 14;
pub const EXAMPLE: u8 = 15;

pub const CLASSES: [&str; 16] = [
    "register operations",
    "immediate operations",
    "hi and lo",
    "loads",
    "stores",
    "branches",
    "jumps",
    "unknown codes",
    "fetching",
    "system calls without bytes",
    "input reads",
    "writes to 1 and 2",
    "hints",
    "key writes",
    "exited states",
    "examples of document 01",
];
