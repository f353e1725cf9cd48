//! Holds document 01's examples against the unchanged Rust (rules 0) and against QEMU (rules 1).
//!
//!     check_examples DRIVER

use howitzer::sign_extend;
use judge::{
    answer::Answer,
    domain::Why,
    examples::{Example, Says, EXAMPLES},
    machine::*,
    qemu::{cases::Maker, driver::Driver, trial::Trial},
    rng::Rng,
    rust::{Rust, Verdict},
};
use std::{env, path::Path, process::exit};

/// What a judge says to an example: a value, a refusal, or the words for why it says nothing.
enum Judged {
    Says(String, bool),
    Silent(&'static str),
}

fn rust_says(example: &Example, trial: &Trial, rust: &mut Rust) -> Judged {
    let mut before = trial.case.machine.clone();
    before.state[RULES] = 0;
    let mut after = Machine::default();
    match rust.step(&before, &mut after) {
        Verdict::Inside(Answer::Refused { number }) => judged(Says::Refused(number), example.rules0),
        Verdict::Inside(_) => judged(Says::Value(example.seen(&after)), example.rules0),
        // Document 01 gives these two numbers of its own, where the Rust panics.
        Verdict::Outside(Why::PanicLeast) if example.rules0 == Says::Refused(6) => Judged::Silent(PANICS),
        Verdict::Outside(Why::PanicLowWord) if example.rules0 == Says::Refused(5) => Judged::Silent(PANICS),
        Verdict::Outside(why) => Judged::Says(why.to_string(), false),
    }
}

const PANICS: &str = "panics, outside the compared domain";

fn qemu_says(example: &Example, trial: &Trial, driver: &mut Driver) -> Judged {
    if !example.in_qemu() {
        return Judged::Silent("not asked");
    }
    let (mut after, mut said) = (Machine::default(), None);
    driver.run(&[trial.job()], |_, outcome| said = Some(trial.judge(&outcome, &mut after)));
    match said {
        Some(Ok(Answer::Stepped)) => judged(Says::Value(example.seen(&after)), example.rules1),
        other => Judged::Says(format!("{other:?}"), false),
    }
}

fn judged(says: Says, document: Says) -> Judged {
    Judged::Says(says.to_string(), says == document)
}

impl Judged {
    fn shown(&self) -> String {
        match self {
            Judged::Says(text, agrees) => format!("{text} {}", verdict(*agrees)),
            Judged::Silent(why) => why.to_string(),
        }
    }

    fn differs(&self) -> bool {
        matches!(self, Judged::Says(_, false))
    }
}

fn verdict(agrees: bool) -> &'static str {
    if agrees {
        "ok"
    } else {
        "DIFFERS"
    }
}

/// Example 14: the record's old state is all zero but for the key, which the comparison wants not to be, and memory
/// is empty, so that the instruction reads as zero.
fn example_14(rust: &mut Rust) -> bool {
    let (mut before, mut after) = (Machine::default(), Machine::default());
    before.state[KEY + 31] = 1;
    let verdict = rust.step(&before, &mut after);
    let mut record = before.state;
    record[631 - 360] = 4;
    record[663 - 360] = 1;
    verdict == Verdict::Inside(Answer::Stepped) && after.state == record && after.pages.is_empty()
}

/// Document 01 on the sign extension: any index, counts modulo 64, every bit from index-1 up is tested.
fn sign_extends() -> bool {
    let mut rng = Rng::new(64);
    (0..200_000).all(|_| {
        let (data, index) = (rng.value(), rng.value());
        let count = index % 64;
        let expected = match count {
            0 => 0,
            _ if data >> (count - 1) != 0 => data | u64::MAX << count,
            _ => data & !(u64::MAX << count),
        };
        sign_extend(data, index) == expected
    })
}

fn main() {
    let program = env::args().nth(1).expect("usage: check_examples DRIVER");
    let (mut rust, mut driver, mut maker) = (Rust::new(), Driver::start(Path::new(&program)), Maker::new(1));
    let mut good = true;
    for example in &EXAMPLES {
        let trial = maker.example(example);
        let (zero, one) = (rust_says(example, &trial, &mut rust), qemu_says(example, &trial, &mut driver));
        let zero_line = format!("rules 0: document {} rust {}", example.rules0, zero.shown());
        let one_line = format!("rules 1: document {} qemu {}", example.rules1, one.shown());
        println!("example {}: {}: {zero_line}; {one_line}", example.number, example.text);
        good &= !zero.differs() && !one.differs();
    }
    let (step, extends) = (example_14(&mut rust), sign_extends());
    println!("example 14: the step from the zero state to next_pc 4 and step 1: rust {}", verdict(step));
    println!(
        "753 zero bytes: that step ends in no zero state, so the first record is refused 27: rust {}",
        verdict(step)
    );
    println!("sign_extend, 200,000 times: rust {}", verdict(extends));
    exit(!(good && step && extends) as i32);
}
