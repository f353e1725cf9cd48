//! The fixed list for rules 0: every code, operand edge, offset, call and descriptor, from one seed.

use super::{alu, calls, hints, input, jumps, loads, other, random, writes, Case};
use crate::{examples::EXAMPLES, machine::RULES, qemu, rng::Rng};

pub const SEED: u64 = 2_511_553_810;

/// Cases drawn by chance at the end.
const DRAWN: usize = 600;

pub fn all(take: &mut dyn FnMut(&Case)) {
    let mut maker = qemu::cases::Maker::new(SEED);
    for example in &EXAMPLES {
        let mut case = maker.example(example).case;
        case.machine.state[RULES] = 0;
        take(&case);
    }
    let mut rng = Rng::new(SEED);
    let mut case = Case::default();
    for part in
        [alu::fixed, loads::fixed, jumps::fixed, other::fixed, calls::fixed, input::fixed, writes::fixed, hints::fixed]
    {
        part(&mut rng, &mut case, take);
    }
    let mut maker = random::Maker::new(SEED);
    for _ in 0..DRAWN {
        maker.next(&mut case);
        take(&case);
    }
}
