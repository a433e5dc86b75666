//! The whole work of a peer's run.

use crate::call::{Call, First, CLEAR};
use crate::check::{check_run, check_static_run};
use crate::state::{parts, put_count};
use tracker::Sizes;

/// All that a call is lent is checked as the library checks it, and then `cycles`
/// takes it, with the registers of its state alone. Their count is written at the end.
/// The answer is as the library's.
#[inline]
pub fn checked(call: Call, cycles: impl FnOnce(Call, Sizes) -> First) -> u64 {
    let k = call.k;
    match check_run(&call) {
        Err(refusal) => refusal,
        Ok(sizes) => {
            let (registers, count) = parts(call.state);
            let state = &mut *registers;
            let first = cycles(Call { state, ..call }, sizes);
            put_count(registers, count);
            answer(first, k)
        }
    }
}

/// The same for a static run, whose state has no count.
#[inline]
pub fn checked_codes(call: Call, cycles: impl FnOnce(Call, Sizes) -> First) -> u64 {
    let k = call.k;
    match check_static_run(&call) {
        Err(refusal) => refusal,
        Ok(sizes) => answer(cycles(call, sizes), k),
    }
}

/// The answer of k cycles with a first flow, or of a clear verdict.
#[inline]
fn answer(first: First, k: usize) -> u64 {
    match first {
        Some((cycle, net)) => cycle as u64 * 65536 + net as u64,
        None => k as u64 * 65536 + CLEAR,
    }
}
