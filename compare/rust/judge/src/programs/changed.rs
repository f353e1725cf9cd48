//! Whether a record is that of a step, with a machine made out of the record and stepped by a judge.

use super::load::put;
use crate::{
    answer::Answer,
    checker::record::{StepRecord, ADDRESS, NEW, NEW_EIGHT, OLD, OLD_EIGHT},
    machine::{Machine, EXITED, HINT_LENGTH, PC, RECORD, STATE},
};

/// The held hint is short in all the programs.
const HINT_ROOM: usize = 64;

/// The machine before and after, whose buffers are kept.
pub struct Made {
    before: Machine,
    after: Machine,
}

impl Default for Made {
    fn default() -> Self {
        let before = Machine { pages: vec![0; 2 * RECORD], hint: vec![0; HINT_ROOM], ..Machine::default() };
        Made { before, after: Machine::default() }
    }
}

impl Made {
    /// Whether document 01 calls the record one of a step. All but the step is looked at here; that is the judge's.
    pub fn is_step(
        &mut self,
        record: &StepRecord,
        judge: impl FnOnce(&Machine, &mut Machine) -> Option<Answer>,
    ) -> bool {
        // Steps that can be recorded keep the hint length, so the room for it needn't be what it says.
        let kept = record.number(OLD + HINT_LENGTH) == record.number(NEW + HINT_LENGTH);
        let starts = record.bytes[OLD + EXITED] == 0 && record.number(OLD + PC) % 4 == 0;
        if !kept || !starts || !record.is_of_form() || record.is_wide() || !has_its_touch(record) {
            return false;
        }
        self.lay(record);
        match judge(&self.before, &mut self.after) {
            None | Some(Answer::Refused { .. }) => false,
            Some(_) => self.after.state == record.bytes[NEW..NEW + STATE] && self.holds_new(record),
        }
    }

    /// A memory of the instruction and the touched bytes. No step that can be recorded sees more of it.
    fn lay(&mut self, record: &StepRecord) {
        let m = &mut self.before;
        m.used = 0;
        m.state.copy_from_slice(&record.bytes[OLD..OLD + STATE]);
        for (i, byte) in record.word().to_be_bytes().into_iter().enumerate() {
            put(m, record.number(OLD + PC) + i as u64, byte);
        }
        if let Some(address) = record.touched() {
            for (i, byte) in record.bytes[OLD_EIGHT..NEW_EIGHT].iter().enumerate() {
                put(m, address + i as u64, *byte);
            }
        }
    }

    fn holds_new(&self, record: &StepRecord) -> bool {
        let holds = |address: u64| (0..8).all(|i| self.after.byte(address + i) == record.bytes[NEW_EIGHT + i as usize]);
        record.touched().map_or(true, holds)
    }
}

/// What 26 looks at.
fn has_its_touch(record: &StepRecord) -> bool {
    let Some(address) = record.touched() else {
        return record.bytes[ADDRESS..].iter().all(|byte| *byte == 0);
    };
    let at = OLD_EIGHT + (record.number(OLD + PC) & 4) as usize;
    let agrees = record.bytes[at..at + 4] == record.word().to_be_bytes();
    record.number(ADDRESS) == address && (!record.touches_itself() || agrees)
}
