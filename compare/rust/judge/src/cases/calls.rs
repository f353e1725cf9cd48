//! System calls that move no bytes, and the parts that every call shares.

use super::{Case, CALL, KEY_WRITE};
use crate::{
    encode::{r_type, SPECIAL},
    machine::{HEAP, PAGE},
    rng::Rng,
    scene::Scene,
};

pub const READ: u64 = 5000;
pub const WRITE: u64 = 5001;
pub const MMAP: u64 = 5009;
pub const FCNTL: u64 = 5070;

/// Every number that linux.rs knows, then neighbours and strangers.
pub const NUMBERS: [u64; 19] = [
    READ,
    WRITE,
    MMAP,
    5012,
    5055,
    FCNTL,
    5205,
    0,
    1,
    4000,
    4999,
    5002,
    5008,
    5010,
    5011,
    5013,
    5204,
    5206,
    0xFFFF_FFFF,
];

/// Every descriptor that linux.rs knows, and others.
pub const DESCRIPTORS: [u64; 11] = [0, 1, 2, 3, 4, 5, 6, 7, 8, 0x7FFF_FFFF, 0xFFFF_FFFF];

const LENGTHS: [u64; 10] =
    [0, 1, 0xFFF, 0x1000, 0x1001, 0x2000, 0x7FFF_FFFF, 0x8000_0000, 0xFFFF_FFFF_FFFF_F001, u64::MAX];

/// What the registers ask for.
#[derive(Clone, Copy)]
pub struct Ask {
    pub number: u64,
    pub a0: u64,
    pub a1: u64,
    pub a2: u64,
}

/// Number and descriptor count only in their low words.
fn dirty(rng: &mut Rng, value: u64) -> u64 {
    value & 0xFFFF_FFFF | rng.next() << 32
}

/// The call instruction, with anything in its code field, and the registers that it reads.
pub fn ask(scene: &mut Scene, mut ask: Ask) -> u32 {
    // Mapping alone looks at the whole of a0.
    if ask.number != MMAP && scene.rng.one_in(8) {
        (ask.number, ask.a0) = (dirty(scene.rng, ask.number), dirty(scene.rng, ask.a0));
    }
    for (register, value) in [(2, ask.number), (4, ask.a0), (5, ask.a1), (6, ask.a2)] {
        scene.m().set_reg(register, value);
    }
    if scene.rng.one_in(2) {
        let seven = scene.rng.value();
        scene.m().set_reg(7, seven);
    }
    let code = if scene.rng.one_in(4) { scene.rng.next() as u32 & 0x03FF_FFC0 } else { 0 };
    r_type(SPECIAL, 0, 0, 0, 0, 0x0C) | code
}

/// A call that moves no bytes; a write that would is kept to none of them.
pub fn plain(rng: &mut Rng, case: &mut Case, mut what: Ask) {
    let mut scene = Scene::new(rng, case, CALL);
    let heap = scene.rng.value();
    scene.m().set(HEAP, heap);
    if what.number as u32 == WRITE as u32 && [1, 2, 4].contains(&(what.a0 as u32)) {
        what.a2 = 0;
    }
    let word = ask(&mut scene, what);
    scene.code(word);
}

/// A write to 6: bytes of one doubleword go into the key.
pub fn key_write(rng: &mut Rng, case: &mut Case, a1: u64, a2: u64, held: bool) {
    let mut scene = Scene::new(rng, case, KEY_WRITE);
    let (pc, next) = scene.spot();
    if held {
        let bytes = scene.rng.next().to_be_bytes();
        scene.put(a1 & !7, &bytes);
    }
    let key = crate::machine::KEY;
    let mut bytes = [0; 32];
    scene.rng.fill(&mut bytes);
    scene.m().state[key..key + 32].copy_from_slice(&bytes);
    let word = ask(&mut scene, Ask { number: WRITE, a0: 6, a1, a2 });
    scene.code_at(pc, next, word);
    scene.close(a1 / PAGE as u64);
}

/// Every number with every descriptor, clean and with an upper word; then lengths, commands and keys.
pub fn fixed(rng: &mut Rng, case: &mut Case, take: &mut dyn FnMut(&Case)) {
    for number in NUMBERS {
        for descriptor in DESCRIPTORS {
            let what = Ask { number, a0: descriptor, a1: rng.value(), a2: rng.value() };
            plain(rng, case, what);
            take(case);
            let what = Ask { number: dirty(rng, number), a0: dirty(rng, descriptor), ..what };
            plain(rng, case, what);
            take(case);
        }
    }
    for a1 in LENGTHS {
        for a0 in [0, 0, 0, 1, 0x1_0000_0000, u64::MAX] {
            plain(rng, case, Ask { number: MMAP, a0, a1, a2: 0 });
            take(case);
        }
    }
    for a1 in [3, 0, 1, 2, 4, 0x1_0000_0003, u64::MAX] {
        for a0 in DESCRIPTORS {
            plain(rng, case, Ask { number: FCNTL, a0, a1, a2: 0 });
            take(case);
        }
    }
    fixed_keys(rng, case, take);
}

/// Every alignment with every number of bytes, in pages held and absent, at both ends of the address space.
fn fixed_keys(rng: &mut Rng, case: &mut Case, take: &mut dyn FnMut(&Case)) {
    for off in 0..8 {
        for a2 in [0, 1, 2, 3, 4, 5, 6, 7, 8, 9, 31, 32, 33, 0x8000_0000_0000_0000, u64::MAX] {
            let base = rng.pick(&[0, 0x1000, 0x2FF8, u64::MAX - 7, 0x8000_0000]);
            let held = !rng.one_in(8);
            key_write(rng, case, base + off, a2, held);
            take(case);
        }
    }
}

pub fn random(rng: &mut Rng, case: &mut Case) {
    let number = if rng.one_in(8) { rng.value() } else { rng.pick(&NUMBERS) };
    let a0 = if rng.one_in(8) { rng.value() } else { rng.pick(&DESCRIPTORS) };
    let a1 = if rng.one_in(4) { rng.pick(&[3, 0, 1, 0x1000]) } else { rng.value() };
    let mut what = Ask { number, a0, a1, a2: rng.value() };
    if rng.one_in(4) {
        (what.number, what.a0) = (dirty(rng, number), dirty(rng, a0));
    }
    plain(rng, case, what);
}

pub fn random_key(rng: &mut Rng, case: &mut Case) {
    let a1 = if rng.one_in(2) { rng.below(0x4000) } else { rng.value() };
    let (a2, held) = (if rng.one_in(4) { rng.value() } else { rng.below(12) }, !rng.one_in(4));
    key_write(rng, case, a1, a2, held);
}
