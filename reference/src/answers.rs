//! The answers of the calls: refusals, verdicts and a run's first flow.

/// A call that turns back answers with the number of the condition in the
/// table of document 01, or of document 02 with 18 of request L4, 19 of request L6
/// or 20 of request L7, and a place.
///
/// The place is the net for 4 to 7, the index of the first bad byte for 11, 13
/// and 18, and 0 for every other number.
#[derive(Debug, Clone, Copy, PartialEq, Eq)]
pub struct Refusal {
    pub number: u32,
    pub place: usize,
}

impl Refusal {
    /// A refusal with a place: a net for 4 to 7, an index for 11, 13 and 18.
    pub(crate) fn at(number: u32, place: usize) -> Refusal {
        Refusal { number, place }
    }

    /// A refusal whose number has no place. The place is then 0.
    pub(crate) fn plain(number: u32) -> Refusal {
        Refusal { number, place: 0 }
    }
}

/// The verdict of one cycle.
#[derive(Debug, Clone, Copy, PartialEq, Eq)]
pub enum Verdict {
    /// No protected OUT has mark 1.
    Clear,
    /// The net number of the lowest-numbered protected OUT with mark 1. It is
    /// the number of the OUT itself, not of its pin.
    Flow(usize),
}

/// The answer of a run: the cycle and the verdict of its first flow.
///
/// Cycles count from 0. With a clear verdict the cycle is K.
#[derive(Debug, Clone, Copy, PartialEq, Eq)]
pub struct FirstFlow {
    pub cycle: usize,
    pub verdict: Verdict,
}
