//! The answer of a call that turns back.

use crate::Reason;
use std::error::Error;
use std::fmt;

/// A call that turned back: the condition that it met, and a place.
///
/// No lent byte has changed, except at [`Reason::DoubledRefused`].
///
/// ```
/// use tracker::{Reason, Refusal};
///
/// let refusal = Refusal { reason: Reason::RowByte, place: 2 };
/// let text = "refusal 13 at index 2: a row byte is above 3 (page: a record's byte)";
/// assert_eq!(refusal.to_string(), text);
/// ```
#[derive(Debug, Clone, Copy, PartialEq, Eq, Hash)]
pub struct Refusal {
    /// The condition.
    pub reason: Reason,
    /// The net for the numbers 4 to 7, the index of the first bad byte for 11,
    /// 13 and 18, and otherwise 0. A record is looked through for 13 whatever its
    /// length, and an index of 2^32 − 1 or more is given as 2^32 − 1.
    pub place: usize,
}

impl fmt::Display for Refusal {
    fn fmt(&self, f: &mut fmt::Formatter<'_>) -> fmt::Result {
        write!(f, "refusal {}", self.reason.number())?;
        if let Some(word) = self.reason.place_word() {
            write!(f, " at {word} {}", self.place)?;
        }
        write!(f, ": {}", self.reason)
    }
}

impl Error for Refusal {}
