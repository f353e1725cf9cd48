//! Writes the fixed list for rules 1, as QEMU answers it.
//!
//!     rules1 DRIVER FILE

use judge::{
    machine::Machine,
    qemu::{
        driver::{Driver, Job, BATCH},
        fixed,
        trial::Trial,
    },
    vector::Writer,
};
use std::{env, fs::File, path::Path};

fn main() {
    let arguments: Vec<String> = env::args().skip(1).collect();
    assert!(arguments.len() == 2, "usage: rules1 DRIVER FILE");
    let mut trials = Vec::new();
    fixed::all(&mut |trial| trials.push(trial));
    let mut driver = Driver::start(Path::new(&arguments[0]));
    let (mut after, mut writer, mut overflows) = (Machine::default(), Writer::default(), 0);
    for batch in trials.chunks(BATCH) {
        let jobs: Vec<Job> = batch.iter().map(Trial::job).collect();
        driver.run(&jobs, |i, outcome| match batch[i].judge(&outcome, &mut after) {
            Ok(answer) => writer.add(&batch[i].case, answer, &after),
            Err(_) => overflows += 1,
        });
    }
    let written = File::create(&arguments[1]).and_then(|mut out| writer.finish(&mut out));
    written.unwrap_or_else(|error| panic!("{}: {error}", arguments[1]));
    println!("rules 1: {} vectors from QEMU", writer.count());
    println!("  left out: {overflows:6}  Integer Overflow, where document 01 wraps by choice");
}
