//! The layout of a page, as the peers write it.

use crate::accepted::accepted;
use tracker::kinds::OUT;

/// The cycles that a page shows.
pub const CYCLES: usize = 64;

/// The bytes of a line: those before its signs, its signs, and a newline.
pub const LINE: usize = BEFORE + CYCLES + 1;

/// The bytes of a line before its signs.
pub const BEFORE: usize = 6;

/// The sign of each byte.
pub const SIGNS: [u8; 4] = *b"01lh";

/// The numbers of the OUTs of an accepted image, in order.
pub fn outs(image: &[u8]) -> Vec<usize> {
    let kinds = accepted(image).kinds().iter().enumerate();
    let outs = kinds.filter(|(_, kind)| **kind == OUT);
    outs.map(|(net, _)| net).collect()
}
