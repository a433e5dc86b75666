//! What a call looks at before its first cycle: refusals 9 to 14 for K, states,
//! rows, output buffers and records, and of document 02 refusals 18 of request L4,
//! 19 of request L6 and 20 of request L7.

use crate::answers::Refusal;
use crate::state::{marked_registers, stored_count};

/// A run takes 0 to 4,096 cycles.
pub const MOST_CYCLES: usize = 4096;

/// Refusal 9: K is above 4,096. It is tried before any product with K. From here
/// on a product with K is at most 4,096 * 8,192 and does not overflow.
pub(crate) fn check_cycles(k: usize) -> Result<(), Refusal> {
    if k > MOST_CYCLES {
        return Err(Refusal::plain(9));
    }
    Ok(())
}

/// Refusal 10: the state length is not R + 2, or in a static call R.
pub(crate) fn check_state_length(state: &[u8], length: usize) -> Result<(), Refusal> {
    if state.len() != length {
        return Err(Refusal::plain(10));
    }
    Ok(())
}

/// Refusal 20: the count that a state of r registers holds is not the number of
/// its marked registers.
pub(crate) fn check_count(state: &[u8], r: usize) -> Result<(), Refusal> {
    if stored_count(state, r) != marked_registers(&state[..r]) {
        return Err(Refusal::plain(20));
    }
    Ok(())
}

/// Refusal 12: the row length is not I, or in a run K * I.
pub(crate) fn check_row_length(rows: &[u8], length: usize) -> Result<(), Refusal> {
    if rows.len() != length {
        return Err(Refusal::plain(12));
    }
    Ok(())
}

/// Refusal 14: the net buffer is not N bytes, or in a run the output buffer is
/// not K * O bytes, or for pages the record is not.
pub(crate) fn check_buffer_length(buffer: &[u8], length: usize) -> Result<(), Refusal> {
    if buffer.len() != length {
        return Err(Refusal::plain(14));
    }
    Ok(())
}

/// Refusal 19: the page buffer is not exactly as long as the pages.
pub(crate) fn check_page_length(page: &[u8], length: usize) -> Result<(), Refusal> {
    if page.len() != length {
        return Err(Refusal::plain(19));
    }
    Ok(())
}

/// Refusals 11, 13 and 18: a state, the rows or a record have a bad byte. The
/// place is the index of the first one. In a run it is counted through all K * I
/// row bytes, and in a record through all its bytes.
pub(crate) fn check_bytes(
    bytes: &[u8],
    is_bad: fn(u8) -> bool,
    number: u32,
) -> Result<(), Refusal> {
    for (index, byte) in bytes.iter().enumerate() {
        if is_bad(*byte) {
            return Err(Refusal::at(number, index));
        }
    }
    Ok(())
}
