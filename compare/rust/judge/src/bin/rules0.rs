//! Writes the fixed list for rules 0, as the unchanged Rust answers it.
//!
//!     rules0 FILE

use judge::{
    answer::Answer,
    cases::fixed,
    compare::only_step,
    domain::Why,
    machine::Machine,
    rust::{Rust, Verdict},
    vector::Writer,
};
use std::{collections::BTreeMap, env, fs::File};

fn main() {
    let file = env::args().nth(1).expect("usage: rules0 FILE");
    let (mut rust, mut after, mut writer) = (Rust::new(), Machine::default(), Writer::default());
    let mut outside = BTreeMap::<Why, u32>::new();
    fixed::all(&mut |case| match rust.step(&case.machine, &mut after) {
        Verdict::Outside(why) => *outside.entry(why).or_default() += 1,
        Verdict::Inside(answer) => {
            if let Answer::Refused { .. } = answer {
                assert_eq!(only_step(&case.machine, &after), None, "a refusal changes only the step counter");
            }
            writer.add(case, answer, &after);
        }
    });
    let written = File::create(&file).and_then(|mut out| writer.finish(&mut out));
    written.unwrap_or_else(|error| panic!("{file}: {error}"));
    println!("rules 0: {} vectors from the Rust", writer.count());
    for (why, count) in outside {
        println!("  left out, outside the compared domain: {count:6}  {why}");
    }
}
