//! Stand-in for the crate `anyhow`: an error is the text it shows.
//!
//! The judge reads this text to tell one refusal from another, so nothing but the text is kept.

use std::fmt::{self, Debug, Display};

pub type Result<T, E = Error> = std::result::Result<T, E>;

pub struct Error(String);

impl Error {
    pub fn text(text: String) -> Self {
        Error(text)
    }

    pub fn as_str(&self) -> &str {
        &self.0
    }
}

impl Display for Error {
    fn fmt(&self, f: &mut fmt::Formatter<'_>) -> fmt::Result {
        f.write_str(&self.0)
    }
}

impl Debug for Error {
    fn fmt(&self, f: &mut fmt::Formatter<'_>) -> fmt::Result {
        f.write_str(&self.0)
    }
}

impl<E: std::error::Error> From<E> for Error {
    fn from(error: E) -> Self {
        Error(error.to_string())
    }
}

#[macro_export]
macro_rules! anyhow {
    ($format:literal $(, $argument:expr)* $(,)?) => {
        $crate::Error::text(format!($format $(, $argument)*))
    };
    ($error:expr) => {
        $crate::Error::from($error)
    };
}

#[macro_export]
macro_rules! bail {
    ($($argument:tt)*) => {
        return Err($crate::anyhow!($($argument)*))
    };
}

#[macro_export]
macro_rules! ensure {
    ($condition:expr, $($argument:tt)*) => {
        if !$condition {
            $crate::bail!($($argument)*);
        }
    };
}
