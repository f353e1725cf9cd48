//! The judge for rules 1: single instructions of a user program under `qemu-mips64`.
//!
//! `driver` runs jobs in one QEMU process, `trial` turns a case into a job and its outcome into document 01's bytes,
//! `cases` makes trials of what a user program can run and the manual defines, and `fixed` is the list of them.

pub mod cases;
pub mod choices;
pub mod driver;
pub mod fixed;
mod places;
pub mod trial;
