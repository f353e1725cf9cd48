//! Our machine beside the unchanged Rust, timed in one process on the same programs and the same page records.
//!
//!     bench SOURCES EXECUTABLES LOOPS ROUNDS

mod checker;
mod clock;
mod growth;
mod memory;
mod numbers;
mod sides;
mod speed;

use judge::{
    ours::version,
    programs::{
        elf::{self, Program},
        list::{self, Input},
        load,
    },
};
use speed::Task;
use std::{env, fs, path::Path};

/// Loops without an end, or with one that is far off: each is stopped after so many steps.
const LOOPS: [&str; 3] = ["alu", "memory", "calls"];
const LOOP_STEPS: u64 = 5_000_000;
/// A program that ends sooner is run again until a round has so many.
const PROGRAM_STEPS: u64 = 2_000_000;
/// At which the programs are compiled.
const LEVEL: &str = "O2";
/// Whose records the checker gets.
const RECORDED: [&str; 2] = ["digest", "words"];

fn main() {
    let arguments: Vec<String> = env::args().skip(1).collect();
    let [sources, executables, loops, rounds] = &arguments[..] else {
        panic!("usage: bench SOURCES EXECUTABLES LOOPS ROUNDS");
    };
    let (executables, loops) = (Path::new(executables), Path::new(loops));
    let rounds: usize = rounds.parse().expect("a number of rounds");
    assert!(rounds > 0, "at least one round");
    println!("version {} of the library's interface; rounds: {rounds}, and medians of them\n", version());

    let mut tasks: Vec<Task> = LOOPS.iter().map(|name| looping(name, &program(&loops.join(name)))).collect();
    for listed in list::read(Path::new(sources)) {
        let program = program(&executables.join(format!("{}-{LEVEL}", listed.name)));
        tasks.push(ending(&listed.name, &program, &listed.inputs));
    }
    speed::head();
    tasks.iter().for_each(|task| speed::measure(task, rounds));
    println!();
    checker::head();
    for task in tasks.iter().filter(|task| RECORDED.contains(&task.name.as_str())) {
        (0..2).for_each(|rules| checker::measure(&task.name, rules, &task.machines[rules], rounds));
    }
    println!();
    growth::measure(&program(&loops.join("walk")), rounds);
}

fn program(executable: &Path) -> Program {
    let bytes = fs::read(executable).unwrap_or_else(|error| panic!("{}: {error}", executable.display()));
    elf::read(&bytes)
}

fn looping(name: &str, program: &Program) -> Task {
    let machines = [0, 1].map(|rules| load::machine(program, &[], rules));
    Task { name: name.to_string(), machines, budget: LOOP_STEPS, times: 1 }
}

fn ending(name: &str, program: &Program, inputs: &[Input]) -> Task {
    let machines = [0, 1].map(|rules| load::machine(program, inputs, rules));
    let (_, end) = sides::ours(&machines[0], u64::MAX);
    let times = PROGRAM_STEPS.div_ceil(end.steps);
    Task { name: name.to_string(), machines, budget: u64::MAX, times }
}
