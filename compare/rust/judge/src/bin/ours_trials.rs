//! Our machine against QEMU under rules 1: single instructions by chance. A difference that document 01 doesn't name
//! as a choice stops the run and shows the case.
//!
//!     ours_trials DRIVER COUNT [SEED]

use judge::{
    answer::Answer,
    compare::difference,
    coverage::name,
    machine::{Machine, STEP},
    ours::{self, Called},
    qemu::{
        cases::Maker,
        choices::{back, Choice},
        driver::{Driver, Job, BATCH},
        trial::Trial,
    },
    show,
};
use std::{collections::BTreeMap, env, path::Path, process::exit, time::Instant};

/// One trial in so many is one on which the manual leaves something open.
const OPEN: u64 = 8;

#[derive(Default)]
struct Bench {
    mine: Machine,
    stepped: u64,
    refused: u64,
    /// By choice and instruction.
    chosen: BTreeMap<(Choice, String), u64>,
}

impl Bench {
    /// Where our machine parts from the one expected, in words.
    fn parted(&mut self, trial: &Trial, answer: Answer, after: &Machine) -> Option<String> {
        self.mine.copy_from(&trial.case.machine);
        let called = ours::step(&mut self.mine);
        let expected = Called { answer, count: (answer == Answer::Stepped) as u64 };
        if called != expected {
            return Some(format!("expected {expected:?}, got {called:?}"));
        }
        difference(after, &self.mine)
    }

    /// Ours must be as expected.
    fn hold(&mut self, trial: &Trial, answer: Answer, after: &Machine) {
        if let Some(text) = self.parted(trial, answer, after) {
            println!("a difference: {text}\n\nthe case, and the machine expected after it:\n");
            show::case(&trial.case, answer, after);
            self.mine.copy_from(&trial.case.machine);
            let called = ours::step(&mut self.mine);
            println!("\nthe same case, and our machine after it ({called:?}):\n");
            show::case(&trial.case, called.answer, &self.mine);
            exit(1);
        }
    }

    /// Holds ours against what QEMU shows; or gives the choice that is the reason for its being different.
    fn meet(&mut self, trial: &Trial, answer: Answer, after: &Machine) -> Option<Choice> {
        if let Some(choice) = Choice::of(trial) {
            if self.parted(trial, answer, after).is_some() {
                return Some(choice);
            }
        }
        self.hold(trial, answer, after);
        match answer {
            Answer::Stepped => self.stepped += 1,
            _ => self.refused += 1,
        }
        None
    }

    fn all(&self) -> u64 {
        self.stepped + self.refused + self.chosen.values().sum::<u64>()
    }
}

/// Runs trials under QEMU and gives those in which document 01 chose otherwise.
fn meet_all(driver: &mut Driver, bench: &mut Bench, trials: &[Trial]) -> Vec<(Choice, Trial)> {
    let (mut after, mut chosen) = (Machine::default(), Vec::new());
    let jobs: Vec<Job> = trials.iter().map(Trial::job).collect();
    driver.run(&jobs, |i, outcome| {
        let choice = match trials[i].judge(&outcome, &mut after) {
            Ok(answer) => bench.meet(&trials[i], answer, &after),
            Err(_) => Some(Choice::Wraps),
        };
        chosen.extend(choice.map(|choice| (choice, trials[i].clone())));
    });
    chosen
}

/// Holds ours against what document 01 chooses: by QEMU where it has an instruction for it, otherwise the refusal.
fn check_chosen(driver: &mut Driver, bench: &mut Bench, chosen: &[(Choice, Trial)]) {
    let mut after = Machine::default();
    let (mut twins, mut jobs) = (Vec::new(), Vec::new());
    for (choice, trial) in chosen {
        let word = trial.case.machine.instruction().expect("a trial has an instruction");
        *bench.chosen.entry((*choice, name(word).expect("a known one"))).or_default() += 1;
        match choice.twin(trial) {
            Some(twin) => {
                jobs.push(twin.job());
                twins.push((trial, twin));
            }
            None => {
                after.copy_from(&trial.case.machine);
                after.set(STEP, after.get(STEP).wrapping_add(1));
                bench.hold(trial, Answer::Refused { number: 5 }, &after);
            }
        }
    }
    driver.run(&jobs, |i, outcome| {
        let (trial, twin) = &twins[i];
        let answer = twin.judge(&outcome, &mut after).expect("an instruction that doesn't overflow");
        back(trial, &mut after);
        bench.hold(trial, answer, &after);
    });
}

fn batch(maker: &mut Maker) -> Vec<Trial> {
    let next = || Some(if maker.rng.one_in(OPEN) { Some(maker.random_open()) } else { maker.random() });
    std::iter::from_fn(next).flatten().take(BATCH).collect()
}

fn main() {
    judge::ours::version();
    let arguments: Vec<String> = env::args().skip(1).collect();
    assert!(arguments.len() >= 2, "usage: ours_trials DRIVER COUNT [SEED]");
    let count: u64 = arguments[1].parse().expect("a number");
    let seed = arguments.get(2).map_or(1, |text| text.parse().expect("a number"));
    let (mut driver, mut maker, mut bench) =
        (Driver::start(Path::new(&arguments[0])), Maker::new(seed), Bench::default());
    let start = Instant::now();
    while bench.all() < count {
        let trials = batch(&mut maker);
        let chosen = meet_all(&mut driver, &mut bench, &trials);
        check_chosen(&mut driver, &mut bench, &chosen);
    }
    println!("{:12}  stepped, as QEMU", bench.stepped);
    println!("{:12}  refused with 7, where QEMU has an address error", bench.refused);
    for ((choice, name), times) in &bench.chosen {
        println!("{times:12}  by choice, {name}: {}", choice.text());
    }
    let seconds = start.elapsed().as_secs_f64();
    println!("{:12}  trials from seed {seed} in {seconds:.1} s without another difference", bench.all());
}
