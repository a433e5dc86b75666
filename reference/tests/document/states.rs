//! States for the tests, written apart from the library: request L7 of document
//! 02. A state is the R register bytes and then the number of marked registers as
//! a u16, low byte first.

use crate::samples::split;

/// The state with these register bytes, which are 0 to 3. The bytes 2 and 3 are
/// marked.
pub fn with_count(registers: &[u8]) -> Vec<u8> {
    let marked = registers.iter().filter(|byte| **byte >= 2).count();
    let mut state = registers.to_vec();
    state.extend((marked as u16).to_le_bytes());
    state
}

/// The register bytes of a state.
pub fn registers(state: &[u8]) -> &[u8] {
    &state[..state.len() - 2]
}

/// The state of the doubled netlist in which register j's value and mark start the
/// registers 2j and 2j + 1. These are plain values, so the doubled state's own
/// count is 0, whatever that of the source's state is.
pub fn doubled_state(state: &[u8]) -> Vec<u8> {
    let mut doubled = split(registers(state));
    doubled.extend([0, 0]);
    doubled
}

// 258 marked registers are 2 + 256 * 1.
#[test]
fn states_by_hand() {
    assert_eq!(with_count(&[]), [0, 0]);
    assert_eq!(with_count(&[0, 1, 2, 3]), [0, 1, 2, 3, 2, 0]);
    assert_eq!(with_count(&[3; 258])[258..], [2, 1]);
    assert_eq!(registers(&[0, 3, 1, 0]), [0, 3]);
    assert_eq!(doubled_state(&[0, 3, 1, 0]), [0, 0, 1, 1, 0, 0]);
}
