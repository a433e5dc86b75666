//! The verdict of a cycle, and the first flow of a run.

use std::fmt;

/// The verdict of one cycle: clear, or a flow.
///
/// ```
/// use tracker::Verdict;
///
/// assert_eq!(Verdict::Clear.to_string(), "clear");
/// assert_eq!(Verdict::Flow { net: 5 }.to_string(), "flow at net 5");
/// ```
#[derive(Debug, Clone, Copy, PartialEq, Eq, Hash)]
#[must_use = "a netlist is clear only if its verdict says so"]
pub enum Verdict {
    /// No protected OUT has mark 1.
    Clear,
    /// A protected OUT has mark 1.
    Flow {
        /// The lowest-numbered such OUT. It is the net number of the OUT
        /// itself, neither its pin nor its place among the outputs.
        net: usize,
    },
}

impl Verdict {
    /// Whether the verdict is clear.
    #[must_use]
    pub fn is_clear(self) -> bool {
        self == Verdict::Clear
    }
}

impl fmt::Display for Verdict {
    fn fmt(&self, f: &mut fmt::Formatter<'_>) -> fmt::Result {
        match self {
            Verdict::Clear => f.write_str("clear"),
            Verdict::Flow { net } => write!(f, "flow at net {net}"),
        }
    }
}

/// The answer of a run: its first flow, the cycle and the verdict together.
///
/// ```
/// use tracker::{FirstFlow, Verdict};
///
/// let answer = |cycle, verdict| FirstFlow { cycle, verdict }.to_string();
/// assert_eq!(answer(4, Verdict::Clear), "clear in 4 cycles");
/// assert_eq!(answer(1, Verdict::Clear), "clear in 1 cycle");
/// assert_eq!(answer(1, Verdict::Flow { net: 5 }), "flow at net 5 in cycle 1");
/// ```
#[derive(Debug, Clone, Copy, PartialEq, Eq, Hash)]
#[must_use = "a run is clear only if its verdict says so"]
pub struct FirstFlow {
    /// The first cycle that has a flow. Cycles count from 0, and with a clear
    /// verdict this is K, the number of cycles.
    pub cycle: usize,
    /// The verdict of that cycle, or clear where no cycle has a flow.
    pub verdict: Verdict,
}

impl fmt::Display for FirstFlow {
    fn fmt(&self, f: &mut fmt::Formatter<'_>) -> fmt::Result {
        let FirstFlow { cycle, verdict } = self;
        match verdict {
            Verdict::Clear if *cycle == 1 => write!(f, "{verdict} in 1 cycle"),
            Verdict::Clear => write!(f, "{verdict} in {cycle} cycles"),
            Verdict::Flow { .. } => write!(f, "{verdict} in cycle {cycle}"),
        }
    }
}
