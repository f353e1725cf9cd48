//! Reads a list of vectors for rules 0 and lets the unchanged Rust answer it again.
//!
//!     replay0 FILE

use judge::{
    compare::difference,
    machine::Machine,
    rust::{Rust, Verdict},
    vector::{Reader, Vector},
};
use std::{env, fs::File, io::BufReader, process::exit};

fn main() {
    let file = env::args().nth(1).expect("usage: replay0 FILE");
    let open = File::open(&file).and_then(|input| Reader::new(BufReader::new(input)));
    let mut reader = open.unwrap_or_else(|error| panic!("{file}: {error}"));
    let (mut rust, mut vector, mut after) = (Rust::new(), Vector::default(), Machine::default());
    let mut wrong = 0;
    while reader.read(&mut vector).unwrap_or_else(|error| panic!("{file}: {error}")) {
        let verdict = rust.step(&vector.case.machine, &mut after);
        let expected = Verdict::Inside(vector.answer.expect("a read vector has an answer"));
        let found = if verdict == expected {
            difference(&vector.after, &after)
        } else {
            Some(format!("expected {expected:?}, got {verdict:?}"))
        };
        if let Some(difference) = found {
            wrong += 1;
            println!("vector {}: {difference}", vector.ordinal);
        }
    }
    println!("{} vectors replayed in the Rust, {wrong} differ", reader.count);
    exit((wrong != 0) as i32);
}
