//! Unchecked readers of an accepted image.

use tracker::{kind_place, operand_place};

/// The kind of net i. The image has been accepted and i is below its N.
#[inline(always)]
pub unsafe fn kind(image: *const u8, i: usize) -> u8 {
    *image.add(kind_place(i))
}

/// Operand k of net i. The image has been accepted, and i is below its n.
#[inline(always)]
pub unsafe fn operand(image: *const u8, n: usize, i: usize, k: usize) -> usize {
    let place = image.add(operand_place(n, i, k)) as *const u16;
    usize::from(u16::from_le(place.read_unaligned()))
}
