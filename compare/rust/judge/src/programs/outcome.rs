//! What a program leaves to the outside: what it wrote, its hints and its exit code.

use crate::{answer::Answer, machine::Machine};

#[derive(Clone, Debug, Default, Eq, PartialEq)]
pub struct Outcome {
    pub out: Vec<u8>,
    pub err: Vec<u8>,
    /// Each with its length in four bytes before it, as the program wrote them.
    pub hints: Vec<u8>,
    pub code: u32,
}

impl Outcome {
    /// Notes a step's answer, and says whether the program goes on.
    pub fn goes_on(&mut self, m: &Machine, answer: Answer) -> bool {
        match answer {
            Answer::Stepped => {}
            Answer::Wrote { stream: 1, count } => self.out.extend(&m.output[..count as usize]),
            Answer::Wrote { count, .. } => self.err.extend(&m.output[..count as usize]),
            Answer::Hint { count } => {
                self.hints.extend(count.to_be_bytes());
                self.hints.extend(&m.output[..count as usize]);
            }
            Answer::Exited { code } => {
                self.code = code;
                return false;
            }
            Answer::Refused { number } => panic!("a program is refused with {number} at\n{:x?}", m.state),
        }
        true
    }

    /// What of the two differs, in words.
    pub fn difference(&self, other: &Outcome) -> Option<&'static str> {
        [
            ("what is written to 1", self.out == other.out),
            ("what is written to 2", self.err == other.err),
            ("the hints", self.hints == other.hints),
            ("the exit code", self.code == other.code),
        ]
        .into_iter()
        .find_map(|(what, same)| (!same).then_some(what))
    }
}
