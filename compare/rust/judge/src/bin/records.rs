//! Makes what the checking program reads and what it should print, out of the lists that the judges made.
//!
//!     records RULES0 RULES1 FOLDER

use judge::{
    checker::{list::List, steps::Chosen, VERDICTS},
    vector::{Reader, Vector},
};
use std::{env, fs::File, io::BufReader, path::Path};

fn offer_all(file: &str, chosen: &mut Chosen) {
    let open = File::open(file).and_then(|input| Reader::new(BufReader::new(input)));
    let mut reader = open.unwrap_or_else(|error| panic!("{file}: {error}"));
    let mut vector = Vector::default();
    while reader.read(&mut vector).unwrap_or_else(|error| panic!("{file}: {error}")) {
        chosen.offer(&vector);
    }
}

fn main() {
    let arguments: Vec<String> = env::args().skip(1).collect();
    assert!(arguments.len() == 3, "usage: records RULES0 RULES1 FOLDER");
    let mut chosen = Chosen::default();
    for file in &arguments[..2] {
        offer_all(file, &mut chosen);
    }
    chosen.check();
    let list = List::of(&chosen);
    list.check();
    let folder = Path::new(&arguments[2]);
    list.write(folder).unwrap_or_else(|error| panic!("{}: {error}", folder.display()));
    for verdict in VERDICTS {
        let steps = chosen.steps.keys().filter(|class| class.verdict == verdict).count();
        println!(
            "  {:10}  {:4} records, {steps:3} of them steps of the lists",
            verdict.to_string(),
            list.count(verdict)
        );
    }
}
