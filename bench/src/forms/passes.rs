//! Unchecked passes over the nets of one kind, for the forms that need them. Each
//! starts at a net below which there is none of the kind.

use super::both::Both;
use super::read::{kind, operand};
use tracker::kinds::{OUT, REG};

/// The lowest net of a kind, or n where there is none.
pub unsafe fn lowest(image: *const u8, n: usize, wanted: u8) -> usize {
    (0..n).find(|i| kind(image, *i) == wanted).unwrap_or(n)
}

/// The lowest protected OUT with mark 1.
pub unsafe fn verdict(image: *const u8, n: usize, from: usize, nets: &Both) -> Option<usize> {
    (from..n)
        .find(|i| kind(image, *i) == OUT && operand(image, n, *i, 1) == 1 && nets.read(*i) >= 2)
}

/// The bytes of the OUTs, in net order.
pub unsafe fn write_outputs(image: *const u8, n: usize, from: usize, nets: &Both, out: *mut u8) {
    let mut o = 0;
    for i in from..n {
        if kind(image, i) == OUT {
            *out.add(o) = nets.read(i);
            o += 1;
        }
    }
}

/// Every register takes the byte that its pin reads.
pub unsafe fn clock(image: *const u8, n: usize, from: usize, nets: &Both, state: *mut u8) {
    let mut j = 0;
    for i in from..n {
        if kind(image, i) == REG {
            *state.add(j) = nets.read(operand(image, n, i, 0));
            j += 1;
        }
    }
}
