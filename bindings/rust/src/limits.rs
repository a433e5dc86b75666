//! The largest numbers that the calls take.

/// The most nets that an image may have.
pub const MOST_NETS: usize = 8_192;

/// The most cycles that a run may take.
pub const MOST_CYCLES: usize = 4_096;
