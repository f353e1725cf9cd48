//! Reads a list of vectors, prints what it covers, and fails if a code, offset, refusal or call is missing.
//!
//!     summary FILE

use judge::{cases::CLASSES, coverage::Coverage, vector::Reader, vector::Vector};
use std::{env, fs::File, io::BufReader, process::exit};

fn main() {
    let file = env::args().nth(1).expect("usage: summary FILE");
    let open = File::open(&file).and_then(|input| Reader::new(BufReader::new(input)));
    let mut reader = open.unwrap_or_else(|error| panic!("{file}: {error}"));
    let (mut coverage, mut vector) = (Coverage::default(), Vector::default());
    while reader.read(&mut vector).unwrap_or_else(|error| panic!("{file}: {error}")) {
        coverage.add(&vector);
    }
    assert!(coverage.rules.len() == 1, "one list is for one rules number");
    let rules = *coverage.rules.keys().next().unwrap();
    println!("rules {rules}: {} vectors", reader.count);
    for (class, count) in &coverage.classes {
        println!("  {count:6}  {}", CLASSES[*class as usize]);
    }
    let kinds = ["Stepped", "Wrote", "Hint", "Exited", "Refused"];
    let answers: Vec<_> = coverage.answers.iter().map(|(kind, n)| format!("{} {n}", kinds[*kind as usize])).collect();
    println!("  answers: {}", answers.join(", "));
    let refusals: Vec<_> = coverage.refusals.iter().map(|(number, n)| format!("{number} {n} times")).collect();
    println!("  refusals: {}", refusals.join(", "));
    let least = coverage.stepped.iter().min_by_key(|(_, n)| **n).unwrap();
    println!("  {} instructions carried out, the rarest {} {} times", coverage.stepped.len(), least.0, least.1);
    println!(
        "  {} loads and stores by offset, {} refused codes, {} pairs of call and descriptor",
        coverage.offsets.len(),
        coverage.unknown.len(),
        coverage.calls.len()
    );
    let missing = coverage.missing(rules);
    for what in &missing {
        println!("  MISSING: {what}");
    }
    exit(!missing.is_empty() as i32);
}
