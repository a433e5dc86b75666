//! Form "entries": unchecked reads, no branch on the kind, and no passes.
//!
//! The outputs are collected in the walk over the nets, and so are their
//! policies while no flow is found. In cycle 0 the REGs show the state; after
//! it they show bytes of the cycle before, so there is no pass for the clock.

use super::branches;
use super::passes::{clock, verdict, write_outputs};
use super::walk::{walk, Buffers};
use crate::call::{Call, First};
use tracker::Sizes;

/// The k cycles of an accepted run.
pub fn cycles(mut call: Call, z: Sizes) -> First {
    let (image, n) = (call.image.as_ptr(), z.nets);
    let mut buffers = Buffers::new();
    for nets in &mut buffers.nets {
        nets.set_first();
    }
    let mut first = None;
    for cycle in 0..call.k {
        let now = cycle % 2;
        buffers.row[..z.inputs].copy_from_slice(call.row(z, cycle));
        // SAFETY: the image, the state and the rows have been accepted.
        unsafe {
            let seen = match (cycle, first) {
                (0, _) => start(image, n, call.state, &mut buffers),
                (_, None) => walk::<true>(image, n, now, &mut buffers),
                _ => walk::<false>(image, n, now, &mut buffers),
            };
            let nets = &buffers.nets[now];
            if seen {
                first = verdict(image, n, 0, nets).map(|net| (cycle, net));
            }
            if cycle + 1 == call.k {
                clock(image, n, 0, nets, call.state.as_mut_ptr());
            }
        }
        let outputs = &buffers.outputs[..z.outputs];
        call.slot(z, cycle).copy_from_slice(outputs);
    }
    first
}

/// Cycle 0. Whether there is a flow is left to the verdict.
unsafe fn start(image: *const u8, n: usize, state: &[u8], buffers: &mut Buffers) -> bool {
    let nets = &mut buffers.nets[0];
    branches::work_out(image, n, &buffers.row, state, nets);
    write_outputs(image, n, 0, nets, buffers.outputs.as_mut_ptr());
    true
}
