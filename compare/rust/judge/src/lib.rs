//! Judges of a MIPS64 machine that none of its authors wrote: the unchanged Rust for rules 0, QEMU for rules 1.
//!
//! A *machine* is document 01's state and everything lent beside it, as bytes. A *case* is a machine before a step.
//! A judge takes a case and gives the machine after the step, with document 01's answer, or says why the case is
//! none of its business. Making cases, judging them and writing them down are kept apart, so that a program can
//! make and judge millions of them without touching a file.

pub mod answer;
pub mod cases;
pub mod checker;
pub mod compare;
pub mod coverage;
pub mod domain;
pub mod edges;
pub mod encode;
pub mod examples;
pub mod lent;
pub mod machine;
#[cfg(feature = "ours")]
pub mod ours;
#[cfg(feature = "ours")]
pub mod pair;
pub mod programs;
pub mod qemu;
pub mod records;
pub mod rng;
pub mod rust;
pub mod scene;
pub mod show;
pub mod shrink;
pub mod tally;
pub mod vector;
