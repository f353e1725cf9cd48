//! The list of records with their answers, as the checking program reads and prints them.

use super::{
    copies::{self, entry, Entry},
    old_state::old_state,
    record::{StepRecord, NEW, STEP_RECORD},
    steps::{Chosen, Step},
    Verdict, DIFFERS, FORM, LENGTH, STEP_REFUSED, TOUCH, VERDICTS, WIDE,
};
use crate::machine::{NEXT_PC, STEP};
use std::{collections::BTreeMap, fs, io, path::Path};

/// Changes that only some records allow, by the answer to them: each must have been made.
const CHANGES: [(Verdict, &[&str]); 5] = [
    (
        STEP_REFUSED,
        &[
            "BEQL",
            "reserved opcode",
            "reserved SPECIAL code",
            "reserved SPECIAL2 code",
            "reserved REGIMM code",
            "old pc off alignment",
            "old pc of a jump",
            "old next_pc of a jump",
            "old divisor",
            "old rules, refused",
            "example under the other rules",
        ],
    ),
    (WIDE, &["old descriptor"]),
    (
        TOUCH,
        &[
            "address, 8 more",
            "address, high word",
            "address, low word",
            "address not aligned",
            "address without a touch",
            "old eight without a touch",
            "new eight without a touch",
            "touch denied",
            "old eight against the instruction",
            "instruction against the old eight",
            "old pc in the touched bytes",
            "old base of the address",
        ],
    ),
    (
        DIFFERS,
        &[
            "new eight",
            "old eight, kept",
            "old pc of the exit call",
            "old next_pc",
            "old rules",
            "old register",
            "old hi",
            "old lo",
            "old heap",
            "old step",
            "old offset",
            "old hint length",
            "old key's first byte",
            "old key's last byte",
            "old code",
            "example under the other rules",
        ],
    ),
    (
        Verdict::Accepted,
        &[
            "old hi, written over",
            "old lo, written over",
            "old offset, written over",
            "old key's first byte, written over",
            "old code, written over",
            "old eight, written over",
            "old pc elsewhere",
            "old pc with the touched low word",
            "both hint lengths 65,536",
            "both codes",
            "both rules of a call",
            "example under the other rules",
        ],
    ),
];

#[derive(Default)]
pub struct List {
    bytes: Vec<u8>,
    verdicts: Vec<Verdict>,
    /// How often each change was made, by the answer to it.
    made: BTreeMap<(String, Verdict), u32>,
    /// Every record so far: the same bytes cannot have two answers.
    answered: BTreeMap<StepRecord, Verdict>,
}

impl List {
    /// All records: the steps, their copies, document 01's own, and a remainder.
    pub fn of(chosen: &Chosen) -> Self {
        let mut list = List::default();
        for (class, step) in &chosen.steps {
            list.add(entry("step", step.record.clone(), class.verdict));
        }
        for (turn, (class, step)) in chosen.steps.iter().enumerate() {
            match class.verdict {
                Verdict::Accepted => list.add_copies(step, turn),
                verdict => list.add_copies_of_refused(step, verdict, turn),
            }
        }
        list.add_from_document();
        list.add_remainder(chosen);
        list
    }

    fn add(&mut self, entry: Entry) {
        let Entry { what, record, verdict } = entry;
        assert!(record.is_of_form() == (verdict != FORM), "{what}: only 22 speaks of the form");
        let before = *self.answered.entry(record.clone()).or_insert(verdict);
        assert!(before == verdict, "{what}: {verdict}, but {before} already");
        self.bytes.extend_from_slice(&record.bytes);
        self.verdicts.push(verdict);
        *self.made.entry((what, verdict)).or_default() += 1;
    }

    /// Of the changes that a record allows, makes the one that was made least often so far.
    fn add_rarest(&mut self, copies: Vec<Entry>) {
        let times = |c: &Entry| self.made.get(&(c.what.clone(), c.verdict)).copied().unwrap_or(0);
        if let Some(rarest) = copies.into_iter().min_by_key(times) {
            self.add(rarest);
        }
    }

    /// Some changes of an accepted record: those of its own kind always, those that fit any record in turn.
    fn add_copies(&mut self, step: &Step, turn: usize) {
        let record = &step.record;
        self.add_rarest(copies::new_state(record, turn));
        self.add_rarest(old_state(record, turn));
        if record.touched().is_some() || turn % 2 == 0 {
            self.add_rarest(copies::touch(record, turn));
        }
        self.add_rarest(copies::new_eight(record, turn));
        self.add_rarest(copies::old_eight(record, turn));
        self.add_rarest(copies::contradiction(record, turn));
        self.add_rarest(copies::touch_denied(record));
        match turn % 16 {
            0 | 4 | 8 | 12 => self.add_rarest(copies::form(record, turn)),
            2 | 6 | 10 | 14 => self.add_rarest(copies::refused(record, turn)),
            5 => self.add_rarest(copies::exited(record)),
            _ => {}
        }
        if let Some(example) = step.example {
            self.add(copies::other_rules(record, example));
        }
    }

    /// Some changes of a record that is refused already, more of those that are few: the lesser number stands.
    fn add_copies_of_refused(&mut self, step: &Step, verdict: Verdict, turn: usize) {
        let times = if verdict == STEP_REFUSED { 2 } else { 5 };
        for k in 0..times {
            let mut copies = of_refused(&step.record, verdict, turn);
            let all = copies.len();
            copies.rotate_left((turn + 7 * k) % all);
            self.add_rarest(copies);
        }
    }

    /// Document 01's two records: all zero, and example 14.
    fn add_from_document(&mut self) {
        let example = StepRecord::ZERO.with_number(NEW + NEXT_PC, 4).with_number(NEW + STEP, 1);
        assert!((example.bytes[631], example.bytes[663]) == (4, 1), "example 14 names these two bytes");
        self.add(entry("all zero", StepRecord::ZERO, DIFFERS));
        self.add(entry("example 14", example, Verdict::Accepted));
    }

    /// 21: the beginning of an accepted record.
    fn add_remainder(&mut self, chosen: &Chosen) {
        let accepted = chosen.steps.iter().find(|(class, _)| class.verdict == Verdict::Accepted);
        let (_, step) = accepted.expect("an accepted record");
        self.bytes.extend_from_slice(&step.record.bytes[..STEP_RECORD - 1]);
        self.verdicts.push(LENGTH);
        *self.made.entry(("remainder".to_string(), LENGTH)).or_default() += 1;
    }

    pub fn count(&self, verdict: Verdict) -> usize {
        self.verdicts.iter().filter(|v| **v == verdict).count()
    }

    /// Fails unless every answer occurs, and every change of a state's field, of the form and of a touch.
    pub fn check(&self) {
        for verdict in VERDICTS {
            assert!(self.count(verdict) > 0, "no record {verdict}");
        }
        let any = StepRecord::ZERO;
        let everywhere = [copies::new_state(&any, 0), copies::form(&any, 0), copies::exited(&any)];
        everywhere.into_iter().flatten().for_each(|c| self.must_have(c.what, c.verdict));
        for (verdict, changes) in CHANGES {
            changes.iter().for_each(|what| self.must_have(what.to_string(), verdict));
        }
    }

    fn must_have(&self, what: String, verdict: Verdict) {
        let change = (what, verdict);
        assert!(self.made.contains_key(&change), "no copy that is {verdict} for its {}", change.0);
    }

    /// Writes what the checking program reads and what it should print.
    pub fn write(&self, folder: &Path) -> io::Result<()> {
        let line = |(position, verdict): (usize, &Verdict)| format!("{position} {verdict}\n");
        let lines: String = self.verdicts.iter().enumerate().map(line).collect();
        fs::create_dir_all(folder)?;
        fs::write(folder.join("stdin"), &self.bytes)?;
        fs::write(folder.join("stdout"), lines)
    }
}

/// The changes of a record that is refused, told apart by the two numbers only.
fn of_refused(record: &StepRecord, verdict: Verdict, turn: usize) -> Vec<Entry> {
    let groups = [
        copies::form(record, turn),
        copies::exited(record),
        copies::refused(record, turn),
        copies::touch(record, turn),
        copies::new_state(record, turn),
    ];
    let lesser = |c: Entry| entry(format!("{} on top of {verdict}", c.verdict), c.record, verdict.min(c.verdict));
    groups.into_iter().flatten().map(lesser).collect()
}
