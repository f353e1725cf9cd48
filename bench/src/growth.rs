//! The cost of a step as pages grow, both sides over the list from its first record on, and the Rust also by its hash. The code
//! lies in the last record. One loop goes over all data pages in turn, the other stays in the page in the middle of them.

use judge::{
    machine::{Machine, PAGE, RECORD},
    programs::{elf::Program, load},
};

use crate::{
    memory::{Hash, List},
    numbers::{bounds, median, ratios},
    sides::{ours, rust, End, Side},
};

const RECORDS: [usize; 3] = [16, 256, 4000];
const FIRST_PAGE: u64 = 0x10_0000;
/// A turn over each page takes six steps and a few, so that the least number goes over the most pages more than once.
const LEAST_STEPS: u64 = 30_000;
const STEPS_BY_RECORDS: u64 = 16_000_000;

const SIDES: [Side; 3] = [ours, rust::<List>, rust::<Hash>];

pub fn measure(program: &Program, rounds: usize) {
    println!("nanoseconds a step as pages grow, by the list; a ratio is that of the speeds, as above\n");
    print(["records", "loop", "steps", "ours", "the Rust", "ratio", "least..most", "by hash"].map(String::from));
    for records in RECORDS {
        let data = records as u64 - 1;
        line(records, "over all data pages", &machine(program, records, FIRST_PAGE, data, PAGE as u64), rounds);
        line(records, "in one data page", &machine(program, records, FIRST_PAGE + data / 2, 1, 8), rounds);
    }
}

/// Data pages from the first record on, the code in the last one, and a loop over so many pages by so many bytes.
fn machine(program: &Program, records: usize, page: u64, pages: u64, by: u64) -> Machine {
    let mut m = load::machine(program, &[], 0);
    let code = std::mem::replace(&mut m.pages, vec![0; records * RECORD]);
    assert_eq!(m.used, 1, "the code takes one page");
    for (i, record) in m.pages.chunks_exact_mut(RECORD).enumerate() {
        record[..8].copy_from_slice(&(FIRST_PAGE + i as u64).to_be_bytes());
    }
    m.pages[(records - 1) * RECORD..].copy_from_slice(&code[..RECORD]);
    m.used = records;
    for (register, value) in [(4, page * PAGE as u64), (5, (page + pages) * PAGE as u64), (6, by)] {
        m.set_reg(register, value);
    }
    m
}

fn line(records: usize, what: &str, m: &Machine, rounds: usize) {
    let steps = (STEPS_BY_RECORDS / records as u64).max(LEAST_STEPS);
    let mut times: [Vec<f64>; SIDES.len()] = Default::default();
    for _ in 0..rounds {
        let mut first: Option<End> = None;
        for (side, times) in SIDES.iter().zip(&mut times) {
            let (time, end) = side(m, steps);
            assert_eq!(end.steps, steps, "the loop has no end");
            times.push(time.as_secs_f64() * 1e9 / steps as f64);
            let other = first.get_or_insert_with(|| end.clone());
            if let Some(what) = end.difference(other) {
                panic!("{records} records: the sides differ in {what}");
            }
        }
    }
    let [ours, list, hash] = &times;
    let ratios = ratios(list, ours);
    let (least, most) = bounds(&ratios);
    print([
        records.to_string(),
        what.to_string(),
        steps.to_string(),
        format!("{:.1}", median(ours)),
        format!("{:.1}", median(list)),
        format!("{:.2}", median(&ratios)),
        format!("{least:.2}..{most:.2}"),
        format!("{:.1}", median(hash)),
    ]);
}

fn print([records, what, steps, ours, list, ratio, spread, hash]: [String; 8]) {
    println!("{records:>7}  {what:19} {steps:>8} {ours:>8} {list:>9} {ratio:>6}  {spread:11} {hash:>8}");
}
