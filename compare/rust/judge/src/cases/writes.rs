//! Writes to descriptors 1 and 2: bytes over any number of pages.

use super::{calls, calls::Ask, Case, WRITE};
use crate::{machine::PAGE, rng::Rng, scene::Scene};

/// Where the written bytes lie.
#[derive(Clone, Copy)]
pub enum Span {
    Inside,
    /// Over the end of a page into another.
    Across,
    /// Over the end of a page into one that is absent.
    IntoAbsent,
    /// From an absent page into one that is held.
    FromAbsent,
    /// Over three pages, of which the middle one is absent.
    Three,
    /// Up to the end of the address space.
    Top,
}

pub const SPANS: [Span; 6] = [Span::Inside, Span::Across, Span::IntoAbsent, Span::FromAbsent, Span::Three, Span::Top];

const P: u64 = PAGE as u64;

/// The first address of so many bytes that lie that way.
fn start(rng: &mut Rng, span: Span, length: u64) -> u64 {
    let page = P * (9 + rng.below(4));
    let part = if length < 2 { length } else { 1 + rng.below(length - 1) };
    match span {
        Span::Inside => page + rng.below(P - length.min(P - 1)),
        Span::Across | Span::IntoAbsent | Span::FromAbsent => page - part.min(P),
        Span::Three => page - (length.max(P + 1) - P) / 2,
        Span::Top => length.wrapping_neg(),
    }
}

/// Lays the bytes, and then puts out of use the pages that should be absent.
fn lay(scene: &mut Scene, span: Span, a1: u64, bytes: &[u8]) {
    let page = |i: usize| a1.wrapping_add(i as u64) / P;
    let last = page(bytes.len().saturating_sub(1));
    for (i, byte) in bytes.iter().enumerate() {
        let absent = match span {
            Span::IntoAbsent => page(i) != page(0),
            Span::FromAbsent => page(i) == page(0),
            Span::Three => page(i) != page(0) && page(i) != last,
            _ => false,
        };
        if !absent {
            scene.put(a1.wrapping_add(i as u64), &[*byte]);
        }
    }
}

pub fn write(rng: &mut Rng, case: &mut Case, stream: u64, span: Span, length: usize) {
    let mut scene = Scene::new(rng, case, WRITE);
    let a1 = start(scene.rng, span, length as u64);
    let mut bytes = vec![0; length];
    scene.rng.fill(&mut bytes);
    if length <= 300 {
        lay(&mut scene, span, a1, &bytes);
    } else {
        lay_ends(&mut scene, a1, &bytes);
    }
    let room = length + scene.rng.pick(&[0, 0, 1, 17]);
    scene.output(room.min(8191));
    let word = calls::ask(&mut scene, Ask { number: calls::WRITE, a0: stream, a1, a2: length as u64 });
    let pc = scene.rng.below(0x2000) & !3;
    let next = if scene.rng.one_in(4) { 0x2000 } else { pc + 4 };
    scene.code_at(pc, next, word);
    scene.close(a1 / P);
}

/// Long writes show their first and last bytes; the rest is what the pages are filled with.
fn lay_ends(scene: &mut Scene, a1: u64, bytes: &[u8]) {
    let end = a1.wrapping_add(bytes.len() as u64 - 8);
    scene.put(a1, &bytes[..8]);
    scene.put(end, &bytes[8..16]);
}

pub fn fixed(rng: &mut Rng, case: &mut Case, take: &mut dyn FnMut(&Case)) {
    for stream in [1, 2] {
        for span in SPANS {
            for length in [0, 1, 2, 3, 7, 8, 9, 31, 64] {
                write(rng, case, stream, span, length);
                take(case);
            }
        }
        for (span, length) in [(Span::Inside, 4095), (Span::Three, 4100), (Span::Top, 4096), (Span::Three, 8191)] {
            write(rng, case, stream, span, length);
            take(case);
        }
    }
}

pub fn random(rng: &mut Rng, case: &mut Case) {
    let (stream, span) = (1 + rng.below(2), rng.pick(&SPANS));
    let length = if rng.one_in(64) { rng.index(8192) } else { rng.index(64) };
    write(rng, case, stream, span, length);
}
