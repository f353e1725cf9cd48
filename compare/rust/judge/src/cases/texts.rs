//! Hints beyond those that the lists have room for: every short text, and hints about as long as the hint room.

use super::calls::WRITE;
use crate::{machine::*, rng::Rng};

const SYSCALL: u32 = 0x0C;

/// First bytes around those that begin four, and last bytes around every bound of Unicode's Table 3-7.
const LEADS: std::ops::RangeInclusive<u8> = 0xEF..=0xF5;
const LASTS: [u8; 10] = [0x00, 0x7F, 0x80, 0x8F, 0x90, 0x9F, 0xA0, 0xBF, 0xC0, 0xFF];

/// A machine that is about to write nothing to descriptor 4, with its call in page 0.
pub fn machine() -> Machine {
    let mut m = Machine { used: 1, pages: vec![0; RECORD], ..Machine::default() };
    m.pages[8..12].copy_from_slice(&SYSCALL.to_be_bytes());
    m.set(NEXT_PC, 4);
    m.set_reg(2, WRITE);
    m.set_reg(4, 4);
    m.state[KEY + 31] = 1;
    m.hint = vec![0xA5; 9];
    m.output = vec![0x5A; 5];
    m
}

/// Holds a text with the length that announces it.
pub fn hold(m: &mut Machine, text: &[u8]) {
    m.hint[..4].copy_from_slice(&(text.len() as u32).to_be_bytes());
    m.hint[4..4 + text.len()].copy_from_slice(text);
    m.set(HINT_LENGTH, 4 + text.len() as u64);
}

/// Every text of up to three bytes, and those of four with such a first and such a last byte.
pub fn short(take: &mut dyn FnMut(&[u8])) {
    take(&[]);
    for word in 0..1u32 << 24 {
        let [_, a, b, c] = word.to_be_bytes();
        take(&[a, b, c]);
        if c == 0 {
            take(&[a, b]);
        }
        if (b, c) == (0, 0) {
            take(&[a]);
        }
        if LEADS.contains(&a) {
            LASTS.into_iter().for_each(|d| take(&[a, b, c, d]));
        }
    }
}

/// A write that ends about where the hint room does, of a hint that is complete, or a byte too short or too long.
pub fn long(rng: &mut Rng, m: &mut Machine) {
    m.hint.resize(rng.pick(&[65_535, 65_536, 65_537, 70_000]), 0xA5);
    let total = (m.hint_room() + 1 - rng.index(4)) as u64;
    let written = rng.below(300);
    let held = (total - written).min(m.hint_room() as u64);
    m.hint.fill(b'h');
    m.set(HINT_LENGTH, held);
    m.set_reg(6, written);
    m.set_reg(5, 0x1000 - rng.below(300));
    let announced = (total - 4 + rng.below(3)).saturating_sub(1) as u32;
    m.hint[..4].copy_from_slice(&announced.to_be_bytes());
    m.output.resize(total as usize - 4 - rng.index(2), 0x5A);
    // Half of the time a byte that no text has.
    let spoilt = 4 + rng.index(m.hint_room() - 4);
    m.hint[spoilt] = if rng.one_in(2) { 0xFF } else { b'i' };
}
