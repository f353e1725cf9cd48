//! Hints, our machine against the unchanged Rust: every short text, then hints about as long as the room for them.
//!
//!     ours_hints COUNT [SEED]      COUNT of the long ones

use judge::{
    cases::texts::{hold, long, machine, short},
    machine::Machine,
    pair::Pair,
    rng::Rng,
    tally::Tally,
};
use std::{env, process::exit, time::Instant};

/// A step of both from a copy of the machine; where they part it's the end.
fn step(pair: &mut Pair, copy: &mut Machine, m: &Machine, tally: &mut Tally) {
    copy.copy_from(m);
    pair.stand(copy);
    match pair.step() {
        Ok((verdict, _)) => tally.count(verdict),
        Err(text) => {
            println!("a difference: {text}");
            pair.show(m);
            exit(1)
        }
    }
}

fn told(tally: &Tally, what: &str, start: Instant) {
    tally.print();
    println!("{:12}  {what} in {:.1} s without a difference\n", tally.all(), start.elapsed().as_secs_f64());
}

fn main() {
    judge::ours::version();
    let numbers: Vec<u64> = env::args().skip(1).map(|text| text.parse().expect("a number")).collect();
    let (count, seed) = (*numbers.first().expect("usage: ours_hints COUNT [SEED]"), *numbers.get(1).unwrap_or(&1));
    let (mut pair, mut m, mut copy) = (Pair::default(), machine(), Machine::default());
    let (mut tally, start) = (Tally::default(), Instant::now());
    short(&mut |text| {
        hold(&mut m, text);
        step(&mut pair, &mut copy, &m, &mut tally);
    });
    told(&tally, "short texts", start);
    let (mut rng, mut tally, start) = (Rng::new(seed), Tally::default(), Instant::now());
    for _ in 0..count {
        long(&mut rng, &mut m);
        step(&mut pair, &mut copy, &m, &mut tally);
    }
    told(&tally, &format!("long hints from seed {seed}"), start);
}
