//! The report of a case that failed.

use std::fmt;

use crate::coding;
use crate::lent::{Spot, WrongByte};
use crate::name::Name;

/// What went wrong, and what is needed to run the case again.
#[derive(Clone, Debug, PartialEq, Eq)]
pub struct Failure {
    pub family: &'static str,
    pub seed: u64,
    /// The number of the call within the case, from 1.
    pub place: usize,
    pub name: Name,
    /// The call in words.
    pub call: String,
    /// The library's answer.
    pub answer: u64,
    /// The reference's answer, where the call was compared with it.
    pub expected: Option<u64>,
    /// The first byte that is wrong, if one is.
    pub byte: Option<WrongByte>,
    /// The property that does not hold, where one was tried.
    pub property: Option<String>,
}

/// A case ends with nothing to say or with a failure.
pub type Outcome = Result<(), Box<Failure>>;

impl Failure {
    /// The command that runs this case alone.
    pub fn command(&self) -> String {
        format!(
            "TRACKER_CASE={}:{} cargo test --offline -p tests one_case -- --nocapture",
            self.family, self.seed
        )
    }
}

impl fmt::Display for WrongByte {
    fn fmt(&self, f: &mut fmt::Formatter) -> fmt::Result {
        match self.spot {
            Spot::Before(distance) => write!(
                f,
                "guard byte {distance} before the {} was written: it",
                self.buffer
            )?,
            Spot::Inside(index) => write!(f, "byte {index} of the {}", self.buffer)?,
            Spot::After(distance) => write!(
                f,
                "guard byte {distance} behind the {} was written: it",
                self.buffer
            )?,
        }
        write!(f, " is {}, expected {}", self.is, self.expected)
    }
}

impl fmt::Display for Failure {
    fn fmt(&self, f: &mut fmt::Formatter) -> fmt::Result {
        writeln!(f, "family {}, seed {}", self.family, self.seed)?;
        writeln!(f, "call {} of the case: {}", self.place, self.call)?;
        let words = |answer| coding::in_words(self.name, answer);
        let answer = self.answer;
        writeln!(f, "the library answers {answer:#x}: {}", words(answer))?;
        if let Some(expected) = self.expected {
            writeln!(f, "the reference says  {expected:#x}: {}", words(expected))?;
        }
        match self.byte {
            Some(byte) => writeln!(f, "first differing byte: {byte}")?,
            None => writeln!(f, "first differing byte: none")?,
        }
        if let Some(property) = &self.property {
            writeln!(f, "what does not hold: {property}")?;
        }
        write!(f, "run it again: {}", self.command())
    }
}
