//! Comparing two machines, byte by byte.

use crate::machine::{Machine, STEP};

/// The first byte in which two machines differ, in words, or nothing.
pub fn difference(expected: &Machine, got: &Machine) -> Option<String> {
    if expected.used != got.used {
        return Some(format!("used records: expected {}, got {}", expected.used, got.used));
    }
    let buffers: [(&str, &[u8], &[u8]); 6] = [
        ("state", &expected.state, &got.state),
        ("pages", &expected.pages, &got.pages),
        ("hint", &expected.hint, &got.hint),
        ("output", &expected.output, &got.output),
        ("index", &expected.index, &got.index),
        ("data", &expected.data, &got.data),
    ];
    buffers.into_iter().find_map(|(name, expected, got)| first(name, expected, got))
}

fn first(name: &str, expected: &[u8], got: &[u8]) -> Option<String> {
    if expected == got {
        return None;
    }
    if expected.len() != got.len() {
        return Some(format!("{name}: expected {} bytes, got {}", expected.len(), got.len()));
    }
    let at = expected.iter().zip(got).position(|(a, b)| a != b)?;
    Some(format!("{name}, byte {at}: expected {:02x}, got {:02x}", expected[at], got[at]))
}

/// What document 01 lets a refusal from 2 to 13 change.
pub fn only_step(before: &Machine, after: &Machine) -> Option<String> {
    let mut counted = after.clone();
    counted.set(STEP, after.get(STEP).wrapping_sub(1));
    difference(before, &counted)
}
