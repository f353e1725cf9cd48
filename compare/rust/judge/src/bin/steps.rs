//! Single steps of the unchanged Rust by chance, counted by answer and by why a case lies outside the domain.
//!
//!     steps COUNT [SEED]

use judge::{
    answer::Answer,
    cases::{random::Maker, Case},
    compare::only_step,
    machine::Machine,
    rust::{Rust, Verdict},
    tally::Tally,
};
use std::{env, time::Instant};

fn main() {
    let numbers: Vec<u64> = env::args().skip(1).map(|text| text.parse().expect("a number")).collect();
    let (count, seed) = (*numbers.first().expect("usage: steps COUNT [SEED]"), *numbers.get(1).unwrap_or(&1));
    let (mut maker, mut case) = (Maker::new(seed), Case::default());
    let (mut rust, mut after) = (Rust::new(), Machine::default());
    let mut tally = Tally::default();
    let start = Instant::now();
    for _ in 0..count {
        maker.next(&mut case);
        let verdict = rust.step(&case.machine, &mut after);
        if let Verdict::Inside(Answer::Refused { .. }) = verdict {
            assert_eq!(only_step(&case.machine, &after), None, "a refusal changes only the step counter");
        }
        tally.count(verdict);
    }
    let seconds = start.elapsed().as_secs_f64();
    tally.print();
    println!("{count:12}  steps from seed {seed} in {seconds:.1} s");
}
