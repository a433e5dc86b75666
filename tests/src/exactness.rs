//! Counts of nets by their marks, beside whether other values of the marked INPUTs and
//! REGs change them.

use std::fmt;

use tracker::kinds::{NOT, OUT};

/// A net in a cycle.
pub struct Reached {
    pub kind: u8,
    /// The most ways along which one marked INPUT or REG reaches the net, where 2
    /// stands for more too.
    pub ways: usize,
    pub is_marked: bool,
    /// Other values of the marked INPUTs and REGs change its value.
    pub changes: bool,
}

/// Counts of nets that a marked INPUT or REG reaches, by their kind.
#[derive(Default)]
pub struct Exactness {
    /// Marked nets that none reaches along two ways.
    marked: [u64; 9],
    /// Unmarked nets that none reaches along two ways.
    unmarked: [u64; 9],
    /// Nets that one reaches along two ways, and that are marked though no other
    /// values change them.
    inexact: [u64; 9],
}

impl Exactness {
    /// Counts a net whose mark is as it has to be.
    pub fn note(&mut self, net: &Reached) {
        let kind = usize::from(net.kind);
        match net.ways {
            0 => {}
            1 if net.is_marked => self.marked[kind] += 1,
            1 => self.unmarked[kind] += 1,
            _ if net.is_marked && !net.changes => self.inexact[kind] += 1,
            _ => {}
        }
    }

    /// The smallest number of marked nets that none reaches along two ways, of such
    /// unmarked nets, and of nets that are marked though nothing changes them, each
    /// of all gates and OUTs.
    pub fn least(&self) -> [u64; 3] {
        let gates = usize::from(NOT)..=usize::from(OUT);
        [&self.marked, &self.unmarked, &self.inexact]
            .map(|counts| *counts[gates.clone()].iter().min().expect("six kinds"))
    }
}

impl fmt::Display for Exactness {
    fn fmt(&self, f: &mut fmt::Formatter) -> fmt::Result {
        let (marked, unmarked, inexact) = (self.marked, self.unmarked, self.inexact);
        write!(
            f,
            "nets by kind, reached along one way: marked {marked:?}, unmarked {unmarked:?}; \
             along two: marked though unchanged {inexact:?}"
        )
    }
}
