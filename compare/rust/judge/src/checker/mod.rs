//! Records for the record checker, and what document 01 has it say to each, found without any checker: a record is a
//! step that a judge wrote down, or a copy of one in which a field was changed.

pub mod copies;
pub mod list;
pub mod old_state;
pub mod record;
pub mod steps;
pub mod text;

use std::fmt;

/// The checker's answer. Refusals apply in the order of their numbers and accepting comes after them all, so of two
/// that could be said the lesser is.
#[derive(Clone, Copy, Debug, Eq, Ord, PartialEq, PartialOrd)]
pub enum Verdict {
    Refused(u8),
    Accepted,
}

/// Document 01's numbers, by what they say of a record.
pub const LENGTH: Verdict = Verdict::Refused(21);
pub const FORM: Verdict = Verdict::Refused(22);
pub const OLD_EXITED: Verdict = Verdict::Refused(23);
pub const STEP_REFUSED: Verdict = Verdict::Refused(24);
pub const WIDE: Verdict = Verdict::Refused(25);
pub const TOUCH: Verdict = Verdict::Refused(26);
pub const DIFFERS: Verdict = Verdict::Refused(27);

/// Every answer there is.
pub const VERDICTS: [Verdict; 8] = [Verdict::Accepted, LENGTH, FORM, OLD_EXITED, STEP_REFUSED, WIDE, TOUCH, DIFFERS];

impl fmt::Display for Verdict {
    fn fmt(&self, f: &mut fmt::Formatter<'_>) -> fmt::Result {
        match self {
            Verdict::Accepted => f.write_str("accepted"),
            Verdict::Refused(number) => write!(f, "refused {number}"),
        }
    }
}
