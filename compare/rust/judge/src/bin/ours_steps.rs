//! Our machine against the unchanged Rust under rules 0: single steps by chance, then programs in lockstep.
//!
//!     ours_steps COUNT [SEED]
//!
//! COUNT single steps, and a fifth as many in programs. A difference stops the run and shows the smallest case.

use judge::{
    answer::Answer,
    cases::{
        program::{redirect, Programs},
        random::Maker,
        Case,
    },
    machine::Machine,
    ours::Called,
    pair::Pair,
    rng::Rng,
    tally::Tally,
};
use std::{env, process::exit, time::Instant};

/// Steps that each program makes, and how many it makes at most before it is sent elsewhere.
const PROGRAM: u64 = 10_000;
const AT_MOST: u64 = 2000;

/// Single steps for each step in a program.
const SHARE: u64 = 5;

/// A step of both; where they part it's the end.
fn step(pair: &mut Pair, tally: &mut Tally) -> Option<Answer> {
    match pair.step() {
        Ok((verdict, answer)) => {
            tally.count(verdict);
            answer
        }
        Err(text) => {
            println!("a difference: {text}");
            pair.show(&pair.machine().clone());
            exit(1)
        }
    }
}

fn singles(pair: &mut Pair, count: u64, seed: u64) -> Tally {
    let (mut maker, mut case, mut tally) = (Maker::new(seed), Case::default(), Tally::default());
    for _ in 0..count {
        maker.next(&mut case);
        pair.stand(&mut case.machine);
        step(pair, &mut tally);
    }
    tally
}

/// The steps since a program was sent somewhere. A run of ours from there must come to the same end.
#[derive(Default)]
struct Stretch {
    start: Machine,
    calls: u64,
    counted: u64,
    last: Option<Answer>,
}

impl Stretch {
    fn begin(&mut self, pair: &Pair) {
        self.start.copy_from(pair.machine());
        (self.calls, self.counted, self.last) = (0, 0, None);
    }

    fn add(&mut self, answer: Answer) {
        self.calls += 1;
        self.counted += !matches!(answer, Answer::Refused { .. }) as u64;
        self.last = Some(answer);
    }

    /// An answer other than Stepped ends a run whatever is left of its budget.
    fn check(&self, pair: &Pair) {
        let answer = self.last.unwrap_or(Answer::Stepped);
        let budget = if answer == Answer::Stepped { self.calls } else { self.calls + self.calls % 3 };
        let expected = Called { answer, count: self.counted };
        if let Err(text) = pair.run(&self.start, budget, expected) {
            println!("\na difference after a run of {budget}: {text}");
            exit(1)
        }
    }
}

/// A machine goes on after these by itself.
fn goes_on(answer: Option<Answer>) -> bool {
    matches!(answer, Some(Answer::Stepped | Answer::Wrote { .. } | Answer::Hint { .. }))
}

/// Programs of `PROGRAM` steps each; gives how many there were and how many runs were held against their steps.
fn programs(pair: &mut Pair, count: u64, seed: u64, tally: &mut Tally) -> (u64, u64) {
    let (mut programs, mut machine, mut stretch) = (Programs::new(seed), Machine::default(), Stretch::default());
    let (mut made, mut runs) = (0, 0);
    while tally.all() < count {
        programs.next(&mut machine);
        pair.stand(&mut machine);
        made += 1;
        stretch.begin(pair);
        for _ in 0..PROGRAM {
            let answer = step(pair, tally);
            answer.into_iter().for_each(|answer| stretch.add(answer));
            if answer == Some(Answer::Stepped) && stretch.calls < AT_MOST {
                continue;
            }
            stretch.check(pair);
            runs += 1;
            if !goes_on(answer) || stretch.calls == AT_MOST {
                let seed = programs.rng.next();
                pair.change(|m| redirect(&mut Rng::new(seed), m));
            }
            stretch.begin(pair);
        }
    }
    (made, runs)
}

fn inside(tally: &Tally) -> String {
    let (inside, all) = (tally.inside(), tally.all());
    format!("{inside} inside the compared domain without a difference, {} outside", all - inside)
}

fn main() {
    judge::ours::version();
    let numbers: Vec<u64> = env::args().skip(1).map(|text| text.parse().expect("a number")).collect();
    let (count, seed) = (*numbers.first().expect("usage: ours_steps COUNT [SEED]"), *numbers.get(1).unwrap_or(&1));
    let mut pair = Pair::default();
    let start = Instant::now();
    let tally = singles(&mut pair, count, seed);
    tally.print();
    let seconds = start.elapsed().as_secs_f64();
    println!("{count:12}  single steps from seed {seed} in {seconds:.1} s: {}\n", inside(&tally));
    let (start, mut tally) = (Instant::now(), Tally::default());
    let (made, runs) = programs(&mut pair, count / SHARE, seed, &mut tally);
    tally.print();
    let (steps, seconds) = (tally.all(), start.elapsed().as_secs_f64());
    println!("{steps:12}  steps in {made} programs from seed {seed} in {seconds:.1} s: {}", inside(&tally));
    println!("{runs:12}  runs of ours to the same end");
    println!("Where the Rust has no answer, ours was held to document 01's refusal, if it has one.");
}
