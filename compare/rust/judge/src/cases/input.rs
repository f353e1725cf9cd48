//! Reads from descriptor 5: the input's length, then its bytes, up to the end of a doubleword.

use super::{calls, calls::Ask, Case, INPUT};
use crate::{
    machine::{KEY, OFFSET, PAGE},
    rng::Rng,
    scene::Scene,
};

/// A read: the input's length, the offset reached, where to and how much.
#[derive(Clone, Copy)]
pub struct Read {
    pub length: usize,
    pub offset: u64,
    pub a1: u64,
    pub a2: u64,
    pub held: bool,
}

pub fn read(rng: &mut Rng, case: &mut Case, r: Read) {
    let mut scene = if r.held { Scene::new(rng, case, INPUT) } else { Scene::opening(rng, case, INPUT) };
    let (pc, next) = scene.spot();
    inputs(&mut scene, r.length);
    scene.m().set(OFFSET, r.offset);
    if r.held {
        let bytes = scene.rng.next().to_be_bytes();
        scene.put(r.a1 & !7, &bytes);
    }
    let word = calls::ask(&mut scene, Ask { number: calls::READ, a0: 5, a1: r.a1, a2: r.a2 });
    scene.code_at(pc, next, word);
    scene.close(r.a1 / PAGE as u64);
}

/// Some other inputs, then ours, then perhaps the same key once more with other bytes, and a piece of a record.
fn inputs(scene: &mut Scene, length: usize) {
    let fill = scene.case.fill;
    let before = scene.rng.index(8);
    let data = before + length + scene.rng.index(8);
    scene.m().data.resize(data, fill);
    scene.rng.fill(&mut scene.case.machine.data[before..before + length]);
    if scene.rng.one_in(3) {
        stranger(scene);
    }
    let key: [u8; 32] = scene.m().state[KEY..KEY + 32].try_into().unwrap();
    record(scene, &key, before as u64, length as u64);
    if scene.rng.one_in(3) {
        record(scene, &key, 0, data as u64);
    }
    if scene.rng.one_in(4) {
        let piece = scene.rng.index(48);
        scene.m().index.extend_from_slice(&key);
        let whole = scene.m().index.len() / 48 * 48;
        scene.m().index.resize(whole + piece, fill);
    }
}

/// A record whose key differs from ours in one bit, with a range that nobody may look at.
fn stranger(scene: &mut Scene) {
    let mut key: [u8; 32] = scene.m().state[KEY..KEY + 32].try_into().unwrap();
    key[scene.rng.index(32)] ^= 1 << scene.rng.below(8);
    record(scene, &key, u64::MAX, u64::MAX);
}

fn record(scene: &mut Scene, key: &[u8; 32], start: u64, length: u64) {
    scene.m().index.extend_from_slice(key);
    scene.m().index.extend_from_slice(&start.to_be_bytes());
    scene.m().index.extend_from_slice(&length.to_be_bytes());
}

/// Every offset of short inputs at every alignment, with few bytes, many and none.
pub fn fixed(rng: &mut Rng, case: &mut Case, take: &mut dyn FnMut(&Case)) {
    for length in [0, 1, 3, 8, 21] {
        for offset in 0..=8 + length as u64 {
            for k in 0..6 {
                let a1 = rng.pick(&[0, 0x1000, 0x2FF8, u64::MAX - 7, 0x8000_0000]) + (offset + k) % 8;
                let a2 = [8, 0, u64::MAX, 1 + offset % 7, 9, 32][k as usize];
                read(rng, case, Read { length, offset, a1, a2, held: k != 1 || offset % 4 != 0 });
                take(case);
            }
        }
    }
    for k in 0..8 {
        for a2 in 0..9 {
            read(rng, case, Read { length: 300, offset: 40 * k, a1: 0x3000 + k, a2, held: true });
            take(case);
        }
        read(rng, case, Read { length: 40, offset: 5 * k, a1: 0x5000 + 8 * k, a2: k, held: false });
        take(case);
    }
}

pub fn random(rng: &mut Rng, case: &mut Case) {
    let length = if rng.one_in(2) { rng.index(12) } else { rng.index(64) };
    let offset = rng.below(9 + length as u64);
    let a1 = if rng.one_in(2) { rng.below(0x4000) } else { rng.value() };
    let a2 = if rng.one_in(4) { rng.value() } else { rng.below(12) };
    let held = !rng.one_in(4);
    read(rng, case, Read { length, offset, a1, a2, held });
}
