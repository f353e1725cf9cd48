//! Loads and stores.

use super::{Case, LOAD, STORE};
use crate::{
    encode::{i_type, signed},
    machine::PAGE,
    rng::Rng,
    scene::Scene,
};

pub const LOADS: [u32; 13] = [0x1A, 0x1B, 0x20, 0x21, 0x22, 0x23, 0x24, 0x25, 0x26, 0x27, 0x30, 0x34, 0x37];
pub const STORES: [u32; 10] = [0x28, 0x29, 0x2A, 0x2B, 0x2C, 0x2D, 0x2E, 0x38, 0x3C, 0x3F];

/// What the manual wants the address to be a multiple of.
pub fn alignment(opcode: u32) -> u64 {
    match opcode {
        0x21 | 0x25 | 0x29 => 2,
        0x23 | 0x27 | 0x2B | 0x30 | 0x38 => 4,
        0x34 | 0x37 | 0x3C | 0x3F => 8,
        _ => 1,
    }
}

/// Where the touched doubleword lies.
#[derive(Clone, Copy, Eq, PartialEq)]
pub enum Place {
    Held,
    FirstOfPage,
    LastOfPage,
    Zero,
    Top,
    Far,
    /// In a page that two used records have.
    Twice,
    /// In the page of the instruction.
    Own,
    /// The doubleword that holds the instruction.
    Itself,
    Absent,
}

pub const PLACES: [Place; 10] = [
    Place::Held,
    Place::FirstOfPage,
    Place::LastOfPage,
    Place::Zero,
    Place::Top,
    Place::Far,
    Place::Twice,
    Place::Own,
    Place::Itself,
    Place::Absent,
];

/// A load or store: its code, the offset within the doubleword, and what memory and register hold.
#[derive(Clone, Copy)]
pub struct Access {
    pub opcode: u32,
    pub offset: u64,
    pub memory: u64,
    pub rt: u64,
    pub place: Place,
}

fn doubleword(rng: &mut Rng, place: Place, pc: u64) -> u64 {
    let page = rng.below(16) * PAGE as u64;
    let inside = 8 * rng.below(PAGE as u64 / 8);
    match place {
        Place::Held | Place::Twice | Place::Absent => page + inside,
        Place::FirstOfPage => page,
        Place::LastOfPage => page + PAGE as u64 - 8,
        Place::Zero => 0,
        Place::Top => u64::MAX - 7,
        Place::Far => rng.value() & !7,
        Place::Own => pc / PAGE as u64 * PAGE as u64 + inside,
        Place::Itself => pc & !7,
    }
}

pub fn access(rng: &mut Rng, case: &mut Case, a: Access) {
    let stores = STORES.contains(&a.opcode);
    let class = if stores { STORE } else { LOAD };
    let mut scene = match a.place {
        Place::Absent if stores => Scene::opening(rng, case, class),
        _ => Scene::new(rng, case, class),
    };
    let (pc, next) = scene.spot();
    let address = doubleword(scene.rng, a.place, pc);
    let word = registers(&mut scene, &a, address + a.offset);
    if a.place != Place::Absent {
        scene.put(address, &a.memory.to_be_bytes());
    }
    scene.code_at(pc, next, word);
    if a.place == Place::Twice {
        scene.record(address / PAGE as u64);
    }
    scene.close(address / PAGE as u64);
}

/// Chooses base, immediate and rt so that the instruction reaches the address, and gives its word.
fn registers(scene: &mut Scene, a: &Access, address: u64) -> u32 {
    let (rs, immediate) = (scene.rng.register(), scene.rng.immediate());
    let rt = match scene.rng.below(16) {
        0 => 0,
        1 => rs,
        _ => 1 + scene.rng.below(31) as u32,
    };
    scene.m().set_reg(rt, a.rt);
    scene.m().set_reg(rs, address.wrapping_sub(signed(immediate)));
    i_type(a.opcode, rs, rt, immediate)
}

fn word(rng: &mut Rng) -> u64 {
    if rng.one_in(4) {
        0x0102_0304_0506_0708
    } else {
        rng.value()
    }
}

/// Every load and store at each of the eight offsets, in every place.
pub fn fixed(rng: &mut Rng, case: &mut Case, take: &mut dyn FnMut(&Case)) {
    for opcode in LOADS.into_iter().chain(STORES) {
        for offset in 0..8 {
            for place in PLACES.into_iter().chain([Place::Held; 3]) {
                let a = Access { opcode, offset, memory: word(rng), rt: rng.value(), place };
                access(rng, case, a);
                take(case);
            }
        }
    }
}

pub fn random(rng: &mut Rng, case: &mut Case) {
    let opcode = if rng.one_in(2) { rng.pick(&LOADS) } else { rng.pick(&STORES) };
    let place = if rng.one_in(2) { Place::Held } else { rng.pick(&PLACES) };
    let a = Access { opcode, offset: rng.below(8), memory: word(rng), rt: rng.value(), place };
    access(rng, case, a);
}
