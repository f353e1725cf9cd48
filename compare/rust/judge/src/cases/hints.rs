//! Writes to descriptor 4: hints that are held, completed and handed out.

use super::{calls, calls::Ask, Case, HINT};
use crate::{
    machine::{HINT_LENGTH, PAGE},
    rng::Rng,
    scene::Scene,
};

/// The ends of every row of Unicode's Table 3-7, one text each.
const WELL_FORMED: [&[u8]; 19] = [
    b"",
    b"\x00",
    b"\x7F",
    b"\xC2\x80",
    b"\xDF\xBF",
    b"\xE0\xA0\x80",
    b"\xE0\xBF\xBF",
    b"\xE1\x80\x80",
    b"\xEC\xBF\xBF",
    b"\xED\x80\x80",
    b"\xED\x9F\xBF",
    b"\xEE\x80\x80",
    b"\xEF\xBF\xBF",
    b"\xF0\x90\x80\x80",
    b"\xF0\xBF\xBF\xBF",
    b"\xF1\x80\x80\x80",
    b"\xF3\xBF\xBF\xBF",
    b"\xF4\x80\x80\x80",
    b"\xF4\x8F\xBF\xBF",
];

/// One byte below or above each bound of the table, and texts that break off.
const ILL_FORMED: [&[u8]; 48] = [
    b"\x80",
    b"\xBF",
    b"\xC0\x80",
    b"\xC1\xBF",
    b"\xC2\x7F",
    b"\xC2\xC0",
    b"\xDF\x7F",
    b"\xDF\xC0",
    b"\xE0\x9F\xBF",
    b"\xE0\xC0\x80",
    b"\xE0\xA0\x7F",
    b"\xE0\xBF\xC0",
    b"\xE1\x7F\x80",
    b"\xE1\xC0\x80",
    b"\xEC\x80\x7F",
    b"\xEC\xBF\xC0",
    b"\xED\x7F\x80",
    b"\xED\xA0\x80",
    b"\xED\x80\x7F",
    b"\xED\x9F\xC0",
    b"\xEE\x7F\x80",
    b"\xEF\xC0\x80",
    b"\xEE\x80\x7F",
    b"\xEF\xBF\xC0",
    b"\xF0\x8F\xBF\xBF",
    b"\xF0\xC0\x80\x80",
    b"\xF0\x90\x7F\x80",
    b"\xF0\xBF\xC0\xBF",
    b"\xF0\x90\x80\x7F",
    b"\xF0\xBF\xBF\xC0",
    b"\xF1\x7F\x80\x80",
    b"\xF3\xC0\x80\x80",
    b"\xF1\x80\x7F\x80",
    b"\xF3\xBF\xBF\xC0",
    b"\xF4\x7F\x80\x80",
    b"\xF4\x90\x80\x80",
    b"\xF4\x8F\x7F\xBF",
    b"\xF4\x8F\xBF\xC0",
    b"\xF5\x80\x80\x80",
    b"\xFF",
    b"\xC2",
    b"\xE0\xA0",
    b"\xE1",
    b"\xED\x9F",
    b"\xF0\x90\x80",
    b"\xF1\x80",
    b"\xF4",
    b"a\xE2\x82\xACz\xE2\x82",
];

/// What the buffer would hold after the write, of which so many bytes are there before.
#[derive(Clone, Copy)]
pub struct Hint<'a> {
    pub joined: &'a [u8],
    pub held: usize,
}

pub fn hint(rng: &mut Rng, case: &mut Case, h: Hint) {
    let mut scene = Scene::new(rng, case, HINT);
    let room = h.joined.len() + scene.rng.pick(&[0, 0, 1, 9]);
    scene.hold_hint(room, 0);
    scene.m().hint[..h.held].copy_from_slice(&h.joined[..h.held]);
    scene.m().set(HINT_LENGTH, h.held as u64);
    let more = scene.rng.pick(&[0, 1, 13]);
    scene.output(h.joined.len().saturating_sub(4) + more);
    let written = &h.joined[h.held..];
    let page = PAGE as u64 * (1 + scene.rng.below(3));
    let back = scene.rng.below(1 + written.len() as u64);
    let a1 = if scene.rng.one_in(8) { (written.len() as u64).wrapping_neg() } else { page - back };
    scene.put(a1, written);
    let word = calls::ask(&mut scene, Ask { number: calls::WRITE, a0: 4, a1, a2: written.len() as u64 });
    let pc = 0x7000 + 4 * scene.rng.below(1024);
    let next = if scene.rng.one_in(6) { scene.elsewhere(pc) } else { pc + 4 };
    scene.code_at(pc, next, word);
    scene.close(a1 / PAGE as u64);
}

/// A hint with the length that announces it, right or off by so much.
fn announced(text: &[u8], off: i32) -> Vec<u8> {
    let length = (text.len() as i32 + off) as u32;
    [&length.to_be_bytes()[..], text].concat()
}

/// Texts of every row, then all splits between held and written bytes, complete or not.
pub fn fixed(rng: &mut Rng, case: &mut Case, take: &mut dyn FnMut(&Case)) {
    for text in WELL_FORMED.iter().chain(&ILL_FORMED) {
        let joined = announced(text, 0);
        for held in [0, 4, joined.len()] {
            hint(rng, case, Hint { joined: &joined, held });
            take(case);
        }
    }
    for (text, off) in [("frame", 0), ("frame", -1), ("frame", -5), ("", 0), ("x\u{20AC}y", 0), ("x\u{20AC}y", -2)] {
        let joined = announced(text.as_bytes(), off);
        for held in 0..=joined.len() {
            hint(rng, case, Hint { joined: &joined, held });
            take(case);
        }
    }
    for length in 0..4 {
        for held in 0..=length {
            hint(rng, case, Hint { joined: &[0, 0, 0xFF][..length], held });
            take(case);
        }
    }
    let long = announced(&"l'Etalon \u{E9}tait ici. ".repeat(40).into_bytes(), 0);
    for held in [0, 3, 5, 400] {
        hint(rng, case, Hint { joined: &long, held });
        take(case);
    }
}

pub fn random(rng: &mut Rng, case: &mut Case) {
    let mut text = Vec::new();
    for _ in 0..rng.below(4) {
        let piece = if rng.one_in(8) { rng.pick(&ILL_FORMED) } else { rng.pick(&WELL_FORMED) };
        text.extend_from_slice(piece);
    }
    let off = if rng.one_in(4) { -(rng.below(1 + text.len() as u64) as i32) } else { 0 };
    let mut joined = announced(&text, off);
    if rng.one_in(8) {
        joined.truncate(rng.index(4));
    }
    let held = if rng.one_in(2) { 0 } else { rng.index(joined.len() + 1) };
    hint(rng, case, Hint { joined: &joined, held });
}
