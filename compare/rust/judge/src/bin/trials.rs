//! Single instructions under QEMU by chance, counted by answer.
//!
//!     trials DRIVER COUNT [SEED]

use judge::{
    answer::Answer,
    machine::Machine,
    qemu::{
        cases::Maker,
        driver::{Driver, Job, BATCH},
        trial::Trial,
    },
};
use std::{env, path::Path, time::Instant};

fn main() {
    let arguments: Vec<String> = env::args().skip(1).collect();
    assert!(arguments.len() >= 2, "usage: trials DRIVER COUNT [SEED]");
    let count: usize = arguments[1].parse().expect("a number");
    let seed = arguments.get(2).map_or(1, |text| text.parse().expect("a number"));
    let (mut driver, mut maker, mut after) =
        (Driver::start(Path::new(&arguments[0])), Maker::new(seed), Machine::default());
    let (mut stepped, mut refused, mut overflows) = (0, 0, 0);
    let start = Instant::now();
    while stepped + refused + overflows < count {
        let trials: Vec<Trial> = std::iter::from_fn(|| Some(maker.random())).flatten().take(BATCH).collect();
        let jobs: Vec<Job> = trials.iter().map(Trial::job).collect();
        driver.run(&jobs, |i, outcome| match trials[i].judge(&outcome, &mut after) {
            Ok(Answer::Stepped) => stepped += 1,
            Ok(_) => refused += 1,
            Err(_) => overflows += 1,
        });
    }
    println!("{stepped:12}  stepped");
    println!("{refused:12}  refused with 7 (address error)");
    println!("{overflows:12}  left out: Integer Overflow, where document 01 wraps by choice");
    let seconds = start.elapsed().as_secs_f64();
    println!("{:12}  trials from seed {seed} in {seconds:.1} s", stepped + refused + overflows);
}
