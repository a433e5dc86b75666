//! The mix "inverted": pins that read the value of their net inverted.

use crate::pins::pins_of;
use crate::random::Random;
use tracker::kinds::INVERTED;
use tracker::Net;

/// The pins in 100 that are inverted.
const INVERTED_PINS: usize = 50;

/// Inverts pins of all kinds that have some, at random. The random numbers are
/// other ones than those of the netlist, which has the same seed.
pub fn invert_pins(nets: &mut [Net], seed: u64) {
    let mut random = Random::new(!seed);
    for net in nets {
        for pin in &mut net.operands[..pins_of(net.kind)] {
            if random.chance(INVERTED_PINS) {
                *pin |= INVERTED;
            }
        }
    }
}
