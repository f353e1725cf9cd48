//! Whole programs: compiled C that runs to its end, step by step in the unchanged Rust and in our machine, and under
//! QEMU; and the records of their steps.

pub mod changed;
pub mod elf;
pub mod in_the_rust;
pub mod list;
pub mod load;
#[cfg(feature = "ours")]
pub mod ours;
pub mod outcome;
pub mod qemu;
pub mod reasons;
