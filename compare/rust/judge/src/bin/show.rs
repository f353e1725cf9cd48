//! Shows one vector of a list: its bytes, and what they say.
//!
//!     show FILE ORDINAL

use judge::{
    show,
    vector::{Reader, Vector},
};
use std::{env, fs};

fn main() {
    let arguments: Vec<String> = env::args().skip(1).collect();
    assert!(arguments.len() == 2, "usage: show FILE ORDINAL");
    let (file, ordinal): (_, u32) = (&arguments[0], arguments[1].parse().expect("a number"));
    let bytes = fs::read(file).unwrap_or_else(|error| panic!("{file}: {error}"));
    let mut reader = Reader::new(&bytes[..]).expect("a list of vectors");
    let (mut vector, mut start, mut end) = (Vector::default(), 12, 12);
    while reader.read(&mut vector).expect("a vector") {
        end = start + u32::from_be_bytes(bytes[start..start + 4].try_into().unwrap()) as usize;
        if vector.ordinal == ordinal {
            break;
        }
        start = end;
    }
    assert!(vector.ordinal == ordinal, "no such vector");
    show::vector(&bytes[start..end]);
}
