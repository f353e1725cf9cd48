//! Operands at which instructions are known to go wrong, and random ones around them.

use crate::rng::Rng;

/// Smallest and largest numbers of 32 and 64 bits, their neighbours, and values whose upper half isn't the sign.
pub const EDGES: [u64; 28] = [
    0,
    1,
    2,
    0x7F,
    0x80,
    0x7FFF,
    0x8000,
    0x7FFF_FFFF,
    0x8000_0000,
    0x8000_0001,
    0xFFFF_FFFE,
    0xFFFF_FFFF,
    0x1_0000_0000,
    0x1_0000_0001,
    0x1_8000_0000,
    0x0102_0304_0506_0708,
    0x1122_3344,
    0x7FFF_FFFF_8000_0000,
    0x7FFF_FFFF_FFFF_FFFF,
    0x8000_0000_0000_0000,
    0x8000_0000_0000_0001,
    0x8000_0000_7FFF_FFFF,
    0xF000_0000_0000_0000,
    0xFFFF_FFFF_0000_0000,
    0xFFFF_FFFF_7FFF_FFFF,
    0xFFFF_FFFF_8000_0000,
    0xFFFF_FFFF_FFFF_FFFE,
    0xFFFF_FFFF_FFFF_FFFF,
];

/// Shift amounts in registers: around every width, and with a nonzero upper part.
pub const AMOUNTS: [u64; 16] =
    [0, 1, 7, 8, 16, 31, 32, 33, 47, 63, 64, 65, 96, 0x1_0000_0020, 0xFFFF_FFFF_FFFF_FFE0, 0xFFFF_FFFF_FFFF_FFFF];

pub const IMMEDIATES: [u32; 10] = [0, 1, 2, 0x7F, 0x80, 0x7FFE, 0x7FFF, 0x8000, 0x8001, 0xFFFF];

impl Rng {
    /// Half of the time an edge, otherwise random with all 64 bits, with 32 or with few.
    pub fn value(&mut self) -> u64 {
        match self.below(8) {
            0..=3 => self.pick(&EDGES),
            4 => self.next() as i32 as i64 as u64,
            5 => self.next() >> self.below(64),
            6 => (1 << self.below(64)) - self.below(2),
            _ => self.next(),
        }
    }

    /// A value that 32-bit instructions are defined on: the sign-extension of its low word.
    pub fn canonical(&mut self) -> u64 {
        self.value() as i32 as i64 as u64
    }

    pub fn immediate(&mut self) -> u32 {
        match self.below(3) {
            0 => self.pick(&IMMEDIATES),
            _ => self.below(0x1_0000) as u32,
        }
    }
}
