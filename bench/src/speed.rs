//! Steps a second, in rounds in which each side takes its turn. Whoever comes first in one round comes later in the next.

use judge::machine::Machine;

use crate::{
    memory::{Called, Hash, List, Slots},
    numbers::{bounds, median, rate, ratios},
    sides::{ours, rust, End, Side},
};

/// A program before its first step, under rules 0 and rules 1; how many steps it makes at most, and how often in a round.
pub struct Task {
    pub name: String,
    pub machines: [Machine; 2],
    pub budget: u64,
    pub times: u64,
}

struct Runner {
    name: &'static str,
    rules: usize,
    side: Side,
}

/// Ours under both rules come first, then the Rust with each way to find a page; slots' are those with a step that is called.
const RUNNERS: [Runner; 6] = [
    Runner { name: "ours", rules: 0, side: ours },
    Runner { name: "ours", rules: 1, side: ours },
    Runner { name: "list", rules: 0, side: rust::<List> },
    Runner { name: "slots", rules: 0, side: rust::<Slots> },
    Runner { name: "slots'", rules: 0, side: rust::<Called<Slots>> },
    Runner { name: "hash", rules: 0, side: rust::<Hash> },
];
const OURS: usize = 0;
const OURS_RULES_1: usize = 1;
const FIRST_RUST: usize = 2;

pub fn head() {
    println!("million steps a second; a ratio is ours to the Rust's with the best way to find its pages\n");
    print(
        ["program", "steps", "ours", "the Rust", "pages by", "ratio", "least..most", "of bests", "rules 1", "ratio"]
            .map(String::from),
    );
}

/// A line of the table.
pub fn measure(task: &Task, rounds: usize) {
    let mut rates: [Vec<f64>; RUNNERS.len()] = Default::default();
    let mut steps = 0;
    for turn in 0..rounds {
        steps = round(task, turn, &mut rates);
    }
    let medians = rates.each_ref().map(|rates| median(rates) / 1e6);
    let best = (FIRST_RUST..RUNNERS.len()).max_by(|a, b| medians[*a].total_cmp(&medians[*b])).expect("a way");
    let [zero, one] = [OURS, OURS_RULES_1].map(|ours| ratios(&rates[ours], &rates[best]));
    let (least, most) = bounds(&zero);
    print([
        task.name.clone(),
        steps.to_string(),
        format!("{:.1}", medians[OURS]),
        format!("{:.1}", medians[best]),
        RUNNERS[best].name.to_string(),
        format!("{:.2}", median(&zero)),
        format!("{least:.2}..{most:.2}"),
        format!("{:.2}", bounds(&rates[OURS]).1 / bounds(&rates[best]).1),
        format!("{:.1}", medians[OURS_RULES_1]),
        format!("{:.2}", median(&one)),
    ]);
}

fn print([name, steps, ours, rust, by, ratio, spread, bests, ours_1, ratio_1]: [String; 10]) {
    println!(
        "{name:9} {steps:>8} {ours:>7} {rust:>9}  {by:8} {ratio:>6}  {spread:11} {bests:>9} {ours_1:>9} {ratio_1:>6}"
    );
}

/// One turn of each. What the first run of each leaves under rules 0 must be the same.
fn round(task: &Task, turn: usize, rates: &mut [Vec<f64>; RUNNERS.len()]) -> u64 {
    let mut first: Option<End> = None;
    for i in 0..RUNNERS.len() {
        let place = (turn + i) % RUNNERS.len();
        let runner = &RUNNERS[place];
        let (rate, end) = run(task, runner);
        rates[place].push(rate);
        if runner.rules == 0 {
            let other = first.get_or_insert_with(|| end.clone());
            if let Some(what) = end.difference(other) {
                panic!("{}: the sides differ in {what} ({})", task.name, runner.name);
            }
        }
    }
    first.expect("a run under rules 0").steps
}

fn run(task: &Task, runner: &Runner) -> (f64, End) {
    let machine = &task.machines[runner.rules];
    let (mut time, first) = (runner.side)(machine, task.budget);
    let mut steps = first.steps;
    for _ in 1..task.times {
        let (more, end) = (runner.side)(machine, task.budget);
        time += more;
        steps += end.steps;
    }
    (rate(steps, time), first)
}
