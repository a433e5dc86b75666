//! The gates of the form "lists", in net order.

use super::both::Both;
use super::read::{kind, operand};
use super::table::TABLE;
use tracker::kinds::NOT;

/// All nets from `from` on, four to a turn. There is no gate and no OUT below it.
#[inline]
pub unsafe fn settle_nets(image: *const u8, n: usize, from: usize, nets: &mut Both) {
    let mut i = from;
    while i + 3 < n {
        settle(image, n, i, nets);
        settle(image, n, i + 1, nets);
        settle(image, n, i + 2, nets);
        settle(image, n, i + 3, nets);
        i += 4;
    }
    while i < n {
        settle(image, n, i, nets);
        i += 1;
    }
}

/// Net i takes its byte where it is a gate or OUT, and keeps its own where not.
#[inline(always)]
unsafe fn settle(image: *const u8, n: usize, i: usize, nets: &mut Both) {
    let kind = kind(image, i);
    if kind >= NOT {
        let read = |k: usize| usize::from(nets.read(operand(image, n, i, k)));
        let index = ((usize::from(kind) * 4 + read(0)) * 4 + read(1)) * 4 + read(2);
        nets.put(i, *TABLE.get_unchecked(index));
    }
}
