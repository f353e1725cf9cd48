//! Records a second of the checker, on one core. The records are those of a program's steps, and all must be accepted.

use judge::{answer::Answer, checker::record::STEP_RECORD, machine::Machine, ours};

use crate::{
    clock::timed,
    numbers::{bounds, median, rate},
};

const RECORDS: usize = 20_000;
/// No record is like this: its spare bytes are zero.
const UNTOUCHED: [u8; STEP_RECORD] = [0xEE; STEP_RECORD];

pub fn head() {
    println!("million records a second of the checker, one core, all accepted\n");
    println!("program     rules  records   median  least..most");
}

pub fn measure(name: &str, rules: usize, machine: &Machine, rounds: usize) {
    let records = collect(machine.clone());
    let rates: Vec<f64> = (0..rounds).map(|_| check(&records) / 1e6).collect();
    let (least, most) = bounds(&rates);
    println!("{name:10} {rules:6} {:8} {:8.2}   {least:.2}..{most:.2}", records.len(), median(&rates));
}

/// The records of the first steps; a step that can't be recorded leaves none.
fn collect(mut m: Machine) -> Vec<[u8; STEP_RECORD]> {
    let mut records = Vec::with_capacity(RECORDS);
    while records.len() < RECORDS {
        let mut record = UNTOUCHED;
        let answer = ours::step_recorded(&mut m, &mut record).answer;
        if record != UNTOUCHED {
            records.push(record);
        }
        match answer {
            Answer::Exited { .. } => break,
            Answer::Refused { number } => panic!("a program is refused with {number}"),
            _ => {}
        }
    }
    records
}

fn check(records: &[[u8; STEP_RECORD]]) -> f64 {
    let (time, refused) = timed(|| records.iter().filter(|record| ours::check(&record[..]) != 0).count());
    assert_eq!(refused, 0, "the record of a step is accepted");
    rate(records.len() as u64, time)
}
