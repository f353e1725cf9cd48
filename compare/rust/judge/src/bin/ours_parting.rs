//! A program in our machine under rules 1, each of whose steps is made under rules 0 too: says where the two part, and
//! writes the records of one such step, that under rules 0 and that under rules 1, as text.
//!
//!     ours_parting EXECUTABLE STEP FILE      the step's counter before it; FILE-rules0.txt and FILE-rules1.txt are written

use judge::{
    checker::{
        record::{StepRecord, OLD_EIGHT},
        text::{hex, parted, text},
    },
    coverage::name,
    machine::{PC, RULES, STEP},
    ours,
    programs::{elf, load, outcome::Outcome},
};
use std::{env, fs};

fn main() {
    let arguments: Vec<String> = env::args().skip(1).collect();
    assert!(arguments.len() == 3, "usage: ours_parting EXECUTABLE STEP FILE");
    let (executable, step, file) = (&arguments[0], arguments[1].parse::<u64>().expect("a number"), &arguments[2]);
    ours::version();
    let program = elf::read(&fs::read(executable).expect("an executable"));
    let mut one = load::machine(&program, &[], 1);
    let (mut outcome, mut written) = (Outcome::default(), false);
    loop {
        let (mut zero, counter) = (one.clone(), one.get(STEP));
        zero.state[RULES] = 0;
        let mut records = [StepRecord::ZERO, StepRecord::ZERO];
        let [of_zero, of_one] = &mut records;
        ours::step_recorded(&mut zero, &mut of_zero.bytes);
        let answer = ours::step_recorded(&mut one, &mut of_one.bytes).answer;
        let differing = parted(of_zero, of_one);
        if !differing.is_empty() {
            show(counter, &records, &differing);
            if counter == step {
                for (rules, record) in records.iter().enumerate() {
                    assert_eq!(ours::check(&record.bytes), 0, "a record of our machine is accepted");
                    fs::write(format!("{file}-rules{rules}.txt"), text(record)).expect("a record is written");
                }
                written = true;
            }
        }
        if !outcome.goes_on(&one, answer) {
            break;
        }
    }
    assert!(written, "the two do not part at step {step}");
}

fn show(counter: u64, records: &[StepRecord; 2], differing: &[(String, String, String)]) {
    let record = &records[0];
    let name = name(record.word()).expect("an instruction that was carried out");
    println!("step {counter}, pc {:x}: {name} {:08x}", record.number(PC), record.word());
    println!("  eight bytes {}", hex(&record.bytes[OLD_EIGHT..OLD_EIGHT + 8]));
    for (name, zero, one) in differing {
        println!("  {name} {zero} under rules 0, {one} under rules 1");
    }
    let [zero, one] = [0, 1].map(|rules: usize| ours::check(&records[rules].bytes));
    println!("  checker: {zero} for the record under rules 0, {one} for that under rules 1");
}
