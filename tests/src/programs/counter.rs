//! The counter of document 01, and the rows of a very long input.

use crate::random::Random;
use reference::{and_byte, not_byte};
use tracker::kinds::{AND, INPUT, NOT, OUT, REG};
use tracker::{encode, Net};

/// 0 INPUT; 1 REG(4, start 0); 2 NOT 1; 3 NOT 0; 4 AND(2, 3); 5 OUT 1,
/// protected.
pub fn counter() -> Vec<u8> {
    encode(&[
        Net::new(INPUT, 0, 0, 0),
        Net::new(REG, 4, 0, 0),
        Net::new(NOT, 1, 0, 0),
        Net::new(NOT, 0, 0, 0),
        Net::new(AND, 2, 3, 0),
        Net::new(OUT, 1, 1, 0),
    ])
}

/// The byte of the counter's register after a cycle, from its byte and the row's, so
/// that no netlist is needed.
pub fn register_after(register: u8, row: u8) -> u8 {
    and_byte(not_byte(register), not_byte(row))
}

/// The row bytes of a very long input, one after another.
pub struct Rows {
    random: Random,
}

impl Rows {
    pub fn start() -> Rows {
        Rows {
            random: Random::new(3),
        }
    }

    /// The next row byte. There is always one.
    pub fn take(&mut self) -> u8 {
        self.random.pick(&[0, 0, 0, 0, 1, 2, 3])
    }
}
