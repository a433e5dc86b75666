//! Form "match": unchecked reads, a match on the kind, formulas on bits.

use super::both::Both;
use super::passes::{clock, lowest, verdict, write_outputs};
use super::read::{kind, operand};
use super::table::code;
use crate::call::{Call, First};
use tracker::kinds::{CONST, INPUT, OUT, REG};
use tracker::Sizes;

/// The k cycles of an accepted run.
pub fn cycles(mut call: Call, z: Sizes) -> First {
    let (image, n) = (call.image.as_ptr(), z.nets);
    let mut nets = Both::empty();
    nets.set_first();
    let mut first = None;
    // SAFETY, here and below: the image, the state and the rows have been accepted.
    let (outs, regs) = unsafe { (lowest(image, n, OUT), lowest(image, n, REG)) };
    for cycle in 0..call.k {
        unsafe {
            work_out(image, n, call.row(z, cycle), call.state, &mut nets);
            if first.is_none() {
                first = verdict(image, n, outs, &nets).map(|net| (cycle, net));
            }
            write_outputs(image, n, outs, &nets, call.slot(z, cycle).as_mut_ptr());
            clock(image, n, regs, &nets, call.state.as_mut_ptr());
        }
    }
    first
}

/// The bytes of all nets.
unsafe fn work_out(image: *const u8, n: usize, row: &[u8], state: &[u8], nets: &mut Both) {
    let (mut inputs, mut registers) = (row.as_ptr(), state.as_ptr());
    for i in 0..n {
        let read = |k: usize| nets.read(operand(image, n, i, k));
        let byte = match kind(image, i) {
            CONST => operand(image, n, i, 0) as u8,
            INPUT => {
                inputs = inputs.add(1);
                *inputs.sub(1)
            }
            REG => {
                registers = registers.add(1);
                *registers.sub(1)
            }
            3 => code(3, read(0), 0, 0),
            4 => code(4, read(0), read(1), 0),
            5 => code(5, read(0), read(1), 0),
            6 => code(6, read(0), read(1), 0),
            7 => code(7, read(0), read(1), read(2)),
            _ => read(0),
        };
        nets.put(i, byte);
    }
}
