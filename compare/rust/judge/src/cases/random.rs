//! Cases by chance, as many as one likes, from a seed.

use super::{alu, calls, hints, input, jumps, loads, other, writes, Case};
use crate::rng::Rng;

pub struct Maker {
    rng: Rng,
    operations: Vec<(u32, u32)>,
    unknown: Vec<other::Code>,
}

impl Maker {
    pub fn new(seed: u64) -> Self {
        Maker { rng: Rng::new(seed), operations: alu::operations().collect(), unknown: other::unknown() }
    }

    /// The next case, in the buffers of the last one.
    pub fn next(&mut self, case: &mut Case) {
        let rng = &mut self.rng;
        match rng.below(32) {
            0..=9 => alu::random(rng, case, &self.operations),
            10..=12 => alu::random_immediate(rng, case),
            13..=20 => loads::random(rng, case),
            21..=24 => jumps::random(rng, case),
            25 => other::random(rng, case, &self.unknown),
            26 => calls::random(rng, case),
            27 => calls::random_key(rng, case),
            28..=29 => input::random(rng, case),
            30 => writes::random(rng, case),
            _ => hints::random(rng, case),
        }
    }
}
