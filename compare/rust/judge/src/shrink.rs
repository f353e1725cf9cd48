//! Makes a case smaller for as long as it still shows what it should.

use crate::machine::*;

type Change = Box<dyn Fn(&mut Machine)>;

/// Lengths of the pieces of pages that are tried as zeros, and then of single words.
const PIECES: [usize; 5] = [4096, 512, 64, 8, 4];

/// The smallest machine that can be reached by the changes below, each of which keeps what `holds` says.
pub fn smallest(start: &Machine, mut holds: impl FnMut(&Machine) -> bool) -> Machine {
    let mut best = start.clone();
    loop {
        let mut changed = false;
        for change in changes(&best) {
            let mut tried = best.clone();
            change(&mut tried);
            if tried != best && holds(&tried) {
                (best, changed) = (tried, true);
            }
        }
        if !changed {
            return best;
        }
    }
}

fn changes(m: &Machine) -> Vec<Change> {
    let mut all: Vec<Change> = vec![
        Box::new(|m| m.pages.truncate(m.used * RECORD)),
        Box::new(|m| m.index.clear()),
        Box::new(|m| m.data.clear()),
        Box::new(|m| m.hint.clear()),
        Box::new(|m| m.output.clear()),
        Box::new(|m| m.hint.fill(0)),
        Box::new(|m| m.output.fill(0)),
        Box::new(|m| m.state[CODE] = 0),
        Box::new(|m| m.set(NEXT_PC, m.get(PC).wrapping_add(4))),
        Box::new(plain_key),
    ];
    for record in 0..m.used {
        all.push(Box::new(move |m| drop_record(m, record)));
    }
    for offset in (0..PC).step_by(8).chain([HI, LO, HEAP, STEP, OFFSET, HINT_LENGTH]) {
        all.push(Box::new(move |m| m.set(offset, 0)));
    }
    all.extend(PIECES.into_iter().flat_map(|piece| zeros(m, piece)));
    all
}

/// The compared domain wants a key that is not all zero.
fn plain_key(m: &mut Machine) {
    m.state[KEY..KEY + 32].fill(0);
    m.state[KEY + 31] = 1;
}

fn drop_record(m: &mut Machine, record: usize) {
    if record < m.used {
        m.pages.drain(record * RECORD..(record + 1) * RECORD);
        m.used -= 1;
    }
}

/// Every piece of the pages that is not zero yet; the numbers of used records stay.
fn zeros(m: &Machine, piece: usize) -> Vec<Change> {
    let starts = (0..m.pages.len() / RECORD).flat_map(|r| (0..PAGE).step_by(piece).map(move |at| r * RECORD + 8 + at));
    let full = starts.filter(|start| m.pages[*start..start + piece].iter().any(|byte| *byte != 0));
    full.map(|start| Box::new(move |m: &mut Machine| zero(m, start, piece)) as Change).collect()
}

fn zero(m: &mut Machine, start: usize, length: usize) {
    if let Some(piece) = m.pages.get_mut(start..start + length) {
        piece.fill(0);
    }
}
