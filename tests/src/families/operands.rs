//! One net of a small netlist takes every kind, and its operands take every
//! mix of some telling values. Each time the image is checked, and its figures are
//! asked for.

use crate::all::{all_nets, Pins};
use crate::call::Call;
use crate::case::Case;
use crate::failure::Outcome;
use tracker::kinds::INVERTED;
use tracker::{encode_with, Net, Sizes};

/// The places of the net: net 0 of 1, nets 0 and 1 of 2, nets 0 to 2 of 3.
const PLACES: [(usize, usize); 6] = [(0, 1), (0, 2), (1, 2), (0, 3), (1, 3), (2, 3)];

const KINDS: [u8; 12] = [0, 1, 2, 3, 4, 5, 6, 7, 8, 9, 136, 255];

/// For each place these have the limit of its pins and the number just below it,
/// if there is one, both with and without the top bit.
#[rustfmt::skip]
const VALUES: [u16; 16] = [
    0, 1, 2, 3, 4, 255, 256, 257, 8192, 32_767,
    INVERTED, INVERTED + 1, INVERTED + 2, INVERTED + 3, INVERTED + 256, INVERTED + 32_767,
];

pub const CASES: u64 = (PLACES.len() * KINDS.len()) as u64;

pub fn run(case: &mut Case) -> Outcome {
    let (number, size) = PLACES[(case.seed % CASES) as usize / KINDS.len()];
    let kind = KINDS[case.seed as usize % KINDS.len()];
    let mut nets = Vec::new();
    for other in 0..size {
        nets.push(case.random.pick(&all_nets(Pins::Both, other, size)));
    }
    for a in VALUES {
        for b in VALUES {
            for c in VALUES {
                nets[number] = Net::new(kind, a, b, c);
                check(case, &nets)?;
            }
        }
    }
    Ok(())
}

/// Checks an image with the right sizes, or, in some calls, with one of I, R
/// and O that is too large.
fn check(case: &mut Case, nets: &[Net]) -> Outcome {
    let mut sizes = Sizes::of(nets);
    if case.random.chance(1, 16) {
        match case.random.below(3) {
            0 => sizes.inputs += 1,
            1 => sizes.registers += 1,
            _ => sizes.outputs += 1,
        }
    }
    let image = encode_with(sizes, nets);
    case.compare(&image, &mut Call::check())?;
    case.compare_figures(&image)?;
    Ok(())
}
