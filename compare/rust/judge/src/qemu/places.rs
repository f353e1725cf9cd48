//! Where instructions, targets and data of a trial lie, within the regions that the driver maps.

use super::trial::{region, CODE, DATA, REGION};
use crate::rng::Rng;

/// In the middle of a region a jump's segment ends.
const HALF: u64 = REGION / 2;

/// A pc away from the ways back and with room for every branch: also at the ends of pages and segments.
pub fn pc(rng: &mut Rng) -> u64 {
    let page = 0x3_0000 + rng.below((REGION - 0x6_0000) / 0x1000) * 0x1000;
    let inside = match rng.below(8) {
        0 => HALF - 4,
        1 => HALF - 8,
        2 => HALF,
        3 => page,
        4 => page - 4,
        _ => page + 4 * rng.below(1024),
    };
    rng.pick(&CODE) + inside
}

/// A target in the segment of `slot`, away from the instruction at `pc`.
pub fn near(rng: &mut Rng, slot: u64, pc: u64) -> u64 {
    let base = region(slot);
    target(rng, if slot - base < HALF { base } else { base + HALF }, pc)
}

/// A target anywhere.
pub fn far(rng: &mut Rng, pc: u64) -> u64 {
    let half = rng.pick(&CODE) + rng.below(2) * HALF;
    target(rng, half, pc)
}

fn target(rng: &mut Rng, half: u64, pc: u64) -> u64 {
    loop {
        let target = half + 0x2000 + 4 * rng.below((HALF - 0x4000) / 4);
        if target.abs_diff(pc) > 32 {
            return target;
        }
    }
}

/// A doubleword for data: in the middle of a region, at the ends of pages, or anywhere.
pub fn doubleword(rng: &mut Rng) -> u64 {
    let page = 0x1000 * (1 + rng.below(REGION / 0x1000 - 2));
    let inside = match rng.below(8) {
        0 => HALF,
        1 => HALF - 8,
        2 => page,
        3 => page + 0xFF8,
        _ => page + 8 * rng.below(512),
    };
    rng.pick(&DATA) + inside
}
