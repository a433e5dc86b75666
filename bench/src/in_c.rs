//! The peer in C (c/lists.c), which clang compiles where it is there.

use crate::call::{Call, First, CLEAR};
use crate::forms::table::TABLE;
use tracker::Sizes;

extern "C" {
    fn lists_cycles(
        image: *const u8,
        table: *const u8,
        k: usize,
        state: *mut u8,
        rows: *const u8,
        outputs: *mut u8,
    ) -> u64;
}

/// The k cycles of an accepted run.
pub fn cycles(call: Call, _: Sizes) -> First {
    let (state, outputs) = (call.state.as_mut_ptr(), call.outputs.as_mut_ptr());
    let (image, table, rows) = (call.image.as_ptr(), TABLE.as_ptr(), call.rows.as_ptr());
    // SAFETY: the image, the state and the rows have been accepted.
    let first = unsafe { lists_cycles(image, table, call.k, state, rows, outputs) };
    let (cycle, net) = (first >> 16, first & 0xffff);
    (net != CLEAR).then_some((cycle as usize, net as usize))
}
