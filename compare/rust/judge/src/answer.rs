//! Document 01's answers.

#[derive(Clone, Copy, Debug, Eq, PartialEq)]
pub enum Answer {
    Stepped,
    Wrote { stream: u32, count: u32 },
    Hint { count: u32 },
    Exited { code: u32 },
    Refused { number: u32 },
}

impl Answer {
    /// Kind and two values, as vectors and the C interface carry them; 0 where there is no value.
    pub fn numbers(self) -> (u8, u32, u32) {
        match self {
            Answer::Stepped => (0, 0, 0),
            Answer::Wrote { stream, count } => (1, stream, count),
            Answer::Hint { count } => (2, count, 0),
            Answer::Exited { code } => (3, code, 0),
            Answer::Refused { number } => (4, number, 0),
        }
    }

    pub fn from_numbers(kind: u8, first: u32, second: u32) -> Option<Answer> {
        let answer = match kind {
            0 => Answer::Stepped,
            1 => Answer::Wrote { stream: first, count: second },
            2 => Answer::Hint { count: first },
            3 => Answer::Exited { code: first },
            4 => Answer::Refused { number: first },
            _ => return None,
        };
        (answer.numbers() == (kind, first, second)).then_some(answer)
    }
}
