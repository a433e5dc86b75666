//! Form "branches": unchecked reads, one table of codes, a walk over the nets with
//! branches for the kinds that are no gates, and passes for the verdict, the
//! outputs and the clock.

use super::both::Both;
use super::passes::{clock, lowest, verdict, write_outputs};
use super::read::{kind, operand};
use super::table::TABLE;
use crate::call::{Call, First};
use tracker::kinds::{INPUT, NOT, OUT, REG};
use tracker::Sizes;

/// The k cycles of an accepted run.
pub fn cycles(mut call: Call, z: Sizes) -> First {
    let (image, n) = (call.image.as_ptr(), z.nets);
    let mut nets = Both::empty();
    nets.set_first();
    let mut first = None;
    // SAFETY, here and below: the image, the state and the rows have been accepted.
    let (outs, regs) = unsafe { (lowest(image, n, OUT), lowest(image, n, REG)) };
    for cycle in 0..call.k {
        unsafe {
            work_out(image, n, call.row(z, cycle), call.state, &mut nets);
            if first.is_none() {
                first = verdict(image, n, outs, &nets).map(|net| (cycle, net));
            }
            write_outputs(image, n, outs, &nets, call.slot(z, cycle).as_mut_ptr());
            clock(image, n, regs, &nets, call.state.as_mut_ptr());
        }
    }
    first
}

/// The bytes of all nets.
pub unsafe fn work_out(image: *const u8, n: usize, row: &[u8], state: &[u8], nets: &mut Both) {
    let (mut inputs, mut registers) = (row.as_ptr(), state.as_ptr());
    for i in 0..n {
        let read = |k: usize| usize::from(nets.read(operand(image, n, i, k)));
        let kind = kind(image, i);
        let byte = if kind >= NOT {
            let index = ((usize::from(kind) * 4 + read(0)) * 4 + read(1)) * 4 + read(2);
            *TABLE.get_unchecked(index)
        } else if kind == INPUT {
            inputs = inputs.add(1);
            *inputs.sub(1)
        } else if kind == REG {
            registers = registers.add(1);
            *registers.sub(1)
        } else {
            operand(image, n, i, 0) as u8
        };
        nets.put(i, byte);
    }
}
