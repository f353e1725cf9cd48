//! Compiled programs, run to their end: under rules 0 step by step beside the unchanged Rust, under rules 1 beside QEMU,
//! and the records of their steps. Without the feature `ours` only the two judges run them.
//!
//!     programs SOURCES EXECUTABLES [SAMPLE]

#[cfg(feature = "ours")]
use judge::{
    compare::difference,
    ours::version,
    programs::{
        ours::{by_run, step_by_step, Beside, Recorder},
        reasons::Reason,
    },
};
use judge::{
    machine::Machine,
    programs::{elf, in_the_rust, list, load, outcome::Outcome, qemu},
};
use std::{env, fs, path::Path};

const LEVELS: [&str; 4] = ["O1", "O2", "O3", "Os"];

fn main() {
    let arguments: Vec<String> = env::args().skip(1).collect();
    assert!(arguments.len() >= 2, "usage: programs SOURCES EXECUTABLES [SAMPLE]");
    let (sources, executables) = (Path::new(&arguments[0]), Path::new(&arguments[1]));
    let sample = arguments.get(2).map_or(97, |text| text.parse().expect("a number"));
    let mut runs = Runs::new(sample);
    println!("{:10} {:5} {}", "program", "level", Runs::HEAD);
    for listed in list::read(sources) {
        let mut different: Vec<Different> = Vec::new();
        for level in LEVELS {
            let executable = executables.join(format!("{}-{level}", listed.name));
            let program = elf::read(&fs::read(&executable).expect("an executable"));
            let by_qemu = qemu::run(&executable, &listed.inputs);
            let machine = |rules: u8| load::machine(&program, &listed.inputs, rules);
            let (by_rust, text) = runs.run(machine, &by_qemu);
            let differs = by_rust.difference(&by_qemu);
            let said = differs.map_or("the same".to_string(), |what| format!("DIFFER in {what}"));
            println!("{:10} {level:5} {text} {said}", listed.name);
            let listed_so = listed.differs_at.iter().any(|at| at == level);
            assert_eq!(differs.is_some(), listed_so, "{} at {level} is listed otherwise", listed.name);
            if differs.is_some() {
                match different.iter_mut().find(|other| other.outcomes[0] == by_rust && other.outcomes[1] == by_qemu) {
                    Some(same) => same.levels.push(level),
                    None => different.push(Different { levels: vec![level], outcomes: [by_rust, by_qemu] }),
                }
            }
        }
        different.iter().for_each(|different| different.show(&listed.name));
    }
    runs.end();
}

/// Outcomes under rules 0 and rules 1 that differ, and the levels that have them.
struct Different {
    levels: Vec<&'static str>,
    outcomes: [Outcome; 2],
}

impl Different {
    /// The lines in which they differ.
    fn show(&self, name: &str) {
        let [zero, one] = &self.outcomes;
        let texts = [zero, one].map(|outcome| String::from_utf8_lossy(&outcome.out).into_owned());
        println!("\n{name} at {}, where its output differs:", self.levels.join(", "));
        for (zero, one) in texts[0].lines().zip(texts[1].lines()).filter(|(zero, one)| zero != one) {
            println!("  rules 0  {zero}\n  rules 1  {one}");
        }
        println!("  exit code {} under rules 0, {} under rules 1\n", zero.code, one.code);
    }
}

/// The judges alone.
#[cfg(not(feature = "ours"))]
struct Runs;

#[cfg(not(feature = "ours"))]
impl Runs {
    const HEAD: &'static str = "     steps of the Rust  outcomes of the Rust and of QEMU";

    fn new(_: u64) -> Self {
        Runs
    }

    fn run(&mut self, machine: impl Fn(u8) -> Machine, _: &Outcome) -> (Outcome, String) {
        let (outcome, steps) = in_the_rust::run(machine(0), |_, _| {});
        (outcome, format!("{steps:22} "))
    }

    fn end(&self) {}
}

/// Our machine beside the judges.
#[cfg(feature = "ours")]
struct Runs {
    /// Under rules 0 and rules 1.
    recorders: [Recorder; 2],
    steps: [u64; 2],
}

#[cfg(feature = "ours")]
impl Runs {
    const HEAD: &'static str = " rules 0: steps  each as the Rust   rules 1: steps  outcome as QEMU's   rules 0 and 1";

    fn new(sample: u64) -> Self {
        println!("version {} of the library's interface\n", version());
        Runs { recorders: [Recorder::new(sample), Recorder::new(sample)], steps: [0; 2] }
    }

    fn run(&mut self, machine: impl Fn(u8) -> Machine, by_qemu: &Outcome) -> (Outcome, String) {
        let mut beside = Beside::new(machine(0));
        let (by_rust, steps0) = in_the_rust::run(machine(0), |after, answer| beside.follow(after, answer));
        let (outcome, end, steps1) = step_by_step(machine(1));
        assert_eq!(outcome.difference(by_qemu), None, "rules 1 and QEMU");
        for (rules, outcome, end, steps) in [(0, &by_rust, &beside.m, steps0), (1, &outcome, &end, steps1)] {
            let (again, other_end) = self.recorders[rules].run(machine(rules as u8));
            assert_eq!((again.difference(outcome), difference(end, &other_end)), (None, None), "recorded");
            let (again, other_end, counted) = by_run(machine(rules as u8));
            assert_eq!((again.difference(outcome), difference(end, &other_end)), (None, None), "by run");
            assert_eq!(counted, steps, "run counts the steps");
            self.steps[rules] += steps;
        }
        (by_rust, format!("{steps0:15}  yes                {steps1:15}  yes                 "))
    }

    fn end(&self) {
        println!("\nsteps: {} under rules 0, {} under rules 1", self.steps[0], self.steps[1]);
        for (rules, recorder) in self.recorders.iter().enumerate() {
            let tally = &recorder.tally;
            let changed: u64 = tally.refused.values().chain(tally.accepted.values()).sum();
            println!("\nrules {rules}: {} records, all accepted; {} wide steps without one", tally.records, tally.wide);
            println!(
                "of every {}th, of all calls and of the first of each instruction, {}: {changed} copies with one bit changed",
                recorder.sample, tally.sampled
            );
            for (number, times) in &tally.refused {
                println!("{times:12}  refused with {number}");
            }
            for reason in Reason::ALL {
                println!("{:12}  accepted: {}", tally.accepted.get(&reason).unwrap_or(&0), reason.text());
            }
            let accepted: u64 = tally.accepted.values().sum();
            println!("of {accepted} accepted, {} are steps of the Rust too", tally.by_the_rust);
            let names: Vec<String> = tally.instructions.iter().map(|(name, times)| format!("{name} {times}")).collect();
            println!("{} instructions of isa.rs: {}", names.len(), names.join(", "));
        }
    }
}
