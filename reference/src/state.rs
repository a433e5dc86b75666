//! The layout of a state: request L7 of document 02.
//!
//! The R register bytes come first, in net order, and then the number of marked
//! registers as a u16, low byte first. A static state (request L4) holds no such
//! number: it is the R codes alone.

use crate::gates::is_marked;
use crate::image::{read_u16, write_u16};

/// The bytes of the count.
const COUNT: usize = 2;

/// The length of a state of r registers is r + 2 bytes.
pub fn state_length(r: usize) -> usize {
    r + COUNT
}

/// The state with these register bytes, of which there are at most 8,192: the
/// bytes and then their count.
pub fn state_of(registers: &[u8]) -> Vec<u8> {
    let r = registers.len();
    let mut state = registers.to_vec();
    state.resize(state_length(r), 0);
    write_u16(&mut state, r, marked_registers(registers));
    state
}

/// The number of marked registers.
pub(crate) fn marked_registers(registers: &[u8]) -> usize {
    let mut found = 0;
    for byte in registers {
        if is_marked(*byte) {
            found += 1;
        }
    }
    found
}

/// The count that a state of r registers holds, whether it is right or not.
pub(crate) fn stored_count(state: &[u8], r: usize) -> usize {
    read_u16(state, r)
}
