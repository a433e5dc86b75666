//! How the kinds of a random netlist's nets are mixed, and in what order.

/// The OUTs in 100 that are protected, in every mix.
pub const PROTECTED: usize = 25;

/// A mix of kinds.
#[derive(Clone, Copy, PartialEq)]
pub enum Mix {
    /// All nine kinds are equally likely, in random order.
    Equal,
    /// 85 nets in 100 are gates and OUTs, in random order.
    Gates,
    /// As Gates, but without CONSTs beyond the first nets, and almost every net
    /// is read: pin a of a gate or OUT is the oldest net that nothing reads yet.
    Live,
    /// The INPUTs first, then the REGs, the gates, and the OUTs last, and most
    /// pins of a gate name a net shortly before it.
    Real,
    /// The netlist of Equal, with half of all pins inverted.
    Inverted,
}

/// All mixes.
pub const MIXES: [Mix; 5] = [Mix::Equal, Mix::Gates, Mix::Live, Mix::Real, Mix::Inverted];

impl Mix {
    /// What the mix is called, in print and among arguments.
    pub fn name(self) -> &'static str {
        match self {
            Mix::Equal => "equal",
            Mix::Gates => "gates",
            Mix::Live => "live",
            Mix::Real => "real",
            Mix::Inverted => "inverted",
        }
    }
}

/// The mix of a name.
pub fn named(name: &str) -> Option<Mix> {
    MIXES.into_iter().find(|mix| mix.name() == name)
}
