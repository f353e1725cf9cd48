//! Shows vectors: their bytes, in the pieces that the form has, and what they say.

use crate::{
    answer::Answer,
    cases::Case,
    machine::Machine,
    vector::{fits, Writer},
};

/// Walks over a vector's bytes.
struct Walk<'a> {
    bytes: &'a [u8],
    at: usize,
}

impl Walk<'_> {
    fn number(&mut self, length: usize, text: &str) -> usize {
        let piece = &self.bytes[self.at..self.at + length];
        let value = piece.iter().fold(0, |value, byte| value << 8 | *byte as usize);
        self.line(length, &format!("{text} {value}"));
        value
    }

    fn line(&mut self, length: usize, text: &str) {
        let hex: Vec<String> = self.bytes[self.at..self.at + length].iter().map(|byte| format!("{byte:02x}")).collect();
        println!("{:6}  {:48}  {text}", self.at, hex.join(" "));
        self.at += length;
    }

    fn patches(&mut self, text: &str) {
        for _ in 0..self.number(2, &format!("{text}, patches:")) {
            self.number(4, "  offset");
            let length = self.number(2, "  length");
            self.line(length, "  bytes");
        }
    }
}

const HEAD: [(usize, &str); 15] = [
    (4, "length"),
    (4, "ordinal"),
    (1, "class"),
    (1, "fill"),
    (1, "answer, kind"),
    (1, "spare"),
    (4, "answer, first value"),
    (4, "answer, second value"),
    (2, "used records before"),
    (2, "used records after"),
    (2, "length of pages"),
    (2, "length of hint buffer"),
    (2, "length of output buffer"),
    (2, "length of index"),
    (2, "length of data"),
];

const LISTS: [&str; 10] = [
    "state before",
    "pages before",
    "hint before",
    "output before",
    "index",
    "data",
    "state after",
    "pages after",
    "hint after",
    "output after",
];

/// Prints one vector.
pub fn vector(bytes: &[u8]) {
    let mut walk = Walk { bytes, at: 0 };
    for (length, text) in HEAD {
        walk.number(length, text);
    }
    for text in LISTS {
        walk.patches(text);
    }
}

/// Prints a case with an answer and the machine after it, as the vector that they make, or all as it is if the form
/// has no room for it.
pub fn case(case: &Case, answer: Answer, after: &Machine) {
    if !fits(&case.machine) {
        return println!("{:02x?}\n{answer:?}\n{after:02x?}", case.machine);
    }
    let (mut writer, mut bytes) = (Writer::default(), Vec::new());
    writer.add(case, answer, after);
    writer.finish(&mut bytes).expect("a list in memory");
    vector(&bytes[12..]);
}
