//! Peer "table": in a cycle one walk over the nets, with unchecked reads, branches
//! for the kinds that are no gates, and one table of codes. Nets stand with their
//! inverses. The walk collects the outputs and the flow; a pass takes the clock.

use super::codes::{inverse, is_marked, TABLE};
use crate::call::{Call, First};
use crate::forms::both::Both;
use crate::forms::passes::{clock, lowest};
use crate::forms::read::{kind, operand};
use tracker::kinds::{INPUT, NOT, OUT, REG};
use tracker::Sizes;

/// The k cycles of an accepted static run.
pub fn cycles(mut call: Call, z: Sizes) -> First {
    let (image, n) = (call.image.as_ptr(), z.nets);
    let mut nets = Both::empty();
    nets.set_first();
    let mut first = None;
    // SAFETY, here and below: the image, the state and the rows have been accepted.
    let registers = unsafe { lowest(image, n, REG) };
    for cycle in 0..call.k {
        let row = call.row(z, cycle).as_ptr();
        let outputs = call.slot(z, cycle).as_mut_ptr();
        unsafe {
            let flow = walk(image, n, row, call.state.as_ptr(), &mut nets, outputs);
            first = first.or(flow.map(|net| (cycle, net)));
            clock(image, n, registers, &nets, call.state.as_mut_ptr());
        }
    }
    first
}

/// The codes of all nets and the outputs. The answer is the lowest flow.
unsafe fn walk(
    image: *const u8,
    n: usize,
    mut row: *const u8,
    mut state: *const u8,
    nets: &mut Both,
    mut outputs: *mut u8,
) -> Option<usize> {
    let mut flow = None;
    for i in 0..n {
        let kind = kind(image, i);
        let code = if kind >= NOT {
            let read = |k: usize| usize::from(nets.read(operand(image, n, i, k)));
            let index = ((usize::from(kind) * 8 + read(0)) * 8 + read(1)) * 8 + read(2);
            *TABLE.get_unchecked(index)
        } else if kind == INPUT {
            row = row.add(1);
            *row.sub(1)
        } else if kind == REG {
            state = state.add(1);
            *state.sub(1)
        } else {
            operand(image, n, i, 0) as u8
        };
        nets.put_pair(i, code, inverse(code));
        if kind == OUT {
            *outputs = code;
            outputs = outputs.add(1);
            if is_marked(code) && flow.is_none() && operand(image, n, i, 1) == 1 {
                flow = Some(i);
            }
        }
    }
    flow
}
