//! The peer of the doubled size, in Rust: it counts the nets of the source by kind
//! while it checks them, and then takes as many groups of each kind.

use std::hint::black_box;

use crate::check::{count, refusal};
use tracker::MOST_NETS;

/// What the peer is called, in print and among arguments.
pub const NAME: &str = "Rust";

/// For each kind, how many nets of each kind its group in the doubled netlist has.
const GROUPS: [[usize; 9]; 9] = [
    [2, 0, 0, 0, 0, 0, 0, 0, 0],
    [0, 2, 0, 0, 0, 0, 0, 0, 0],
    [0, 0, 2, 0, 0, 0, 0, 0, 0],
    [0, 0, 0, 1, 0, 1, 0, 0, 0],
    [0, 0, 0, 0, 4, 2, 0, 0, 0],
    [0, 0, 0, 2, 3, 3, 0, 0, 0],
    [0, 0, 0, 0, 0, 1, 1, 0, 0],
    [0, 0, 0, 0, 1, 3, 1, 2, 0],
    [0, 0, 0, 0, 0, 0, 0, 0, 2],
];

/// The nets of the doubled netlist, and those of each kind.
#[derive(Debug, PartialEq)]
pub struct Figures {
    pub nets: usize,
    pub kinds: [usize; 9],
}

/// The figures of the doubled netlist, or one of the refusals 1 to 8 and 15, as the
/// library's answer.
pub fn figures(image: &[u8]) -> Result<Figures, u64> {
    let (_, counts) = count(image)?;
    let mut kinds = [0; 9];
    for (group, times) in GROUPS.iter().zip(counts) {
        for (sum, nets) in kinds.iter_mut().zip(group) {
            *sum += times * nets;
        }
    }
    let nets = kinds.iter().sum();
    if nets > MOST_NETS {
        return Err(refusal(15, 0));
    }
    Ok(Figures { nets, kinds })
}

/// The number of nets or the refusal, as the library answers. All figures are
/// worked out.
pub fn answer(image: &[u8]) -> u64 {
    match black_box(figures(black_box(image))) {
        Ok(figures) => figures.nets as u64,
        Err(refusal) => refusal,
    }
}
