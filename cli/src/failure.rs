//! What ends a command with exit status 2: a text for standard error.

use std::fmt;
use std::io;

/// Why a command could not give a verdict.
#[derive(Debug)]
pub struct Failure(String);

/// What a function gives that may end the command.
pub type Outcome<T> = Result<T, Failure>;

impl Failure {
    /// A failure with this text, which names what it is about and ends without a full stop.
    pub fn new(text: impl Into<String>) -> Failure {
        Failure(text.into())
    }

    /// A failure to read a file.
    pub fn reading(file: impl fmt::Display, error: &io::Error) -> Failure {
        Failure(format!("{file} cannot be read: {error}"))
    }

    /// A failure to write a file.
    pub fn writing(file: impl fmt::Display, error: &io::Error) -> Failure {
        Failure(format!("{file} cannot be written: {error}"))
    }
}

impl fmt::Display for Failure {
    fn fmt(&self, f: &mut fmt::Formatter<'_>) -> fmt::Result {
        f.write_str(&self.0)
    }
}

/// Ends a function with a failure, whose text is formatted.
macro_rules! fail {
    ($($text:tt)*) => {
        return Err($crate::failure::Failure::new(format!($($text)*)))
    };
}
pub(crate) use fail;
