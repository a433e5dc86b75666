//! Form "safe": safe code without a branch on the kind and without bounds tests.
//!
//! All bytes that a net can take stand in one buffer: the nets of this cycle and
//! of the one before, the row, and the two constants. A REG reads the nets of
//! the cycle before, so there is no pass for the clock. The inverse of each net
//! stands as far behind it as the top bit of a pin says. The outputs are
//! collected in the same walk. The buffer and the table are longer than what is
//! used of them, so that the compiler sees that no index can reach their end.

use super::both::INVERSES;
use super::table::WIDE;
use crate::accepted::accepted;
use crate::call::{Call, First};
use crate::plain;
use tracker::kinds::OUT;
use tracker::{Image, Sizes, MOST_NETS};

/// The places of the buffer's parts. The nets of even cycles stand at 0, and no part
/// but the inverses reaches `INVERSES`.
const ODD: usize = MOST_NETS;
const ROW: usize = 2 * MOST_NETS;
const CONSTANTS: usize = 3 * MOST_NETS;
const LENGTH: usize = 4 * 65536;

type Buffer = [u8; LENGTH];
type Outputs = [u8; 65536];

/// The k cycles of an accepted run.
pub fn cycles(mut call: Call, z: Sizes) -> First {
    let (image, n) = (accepted(call.image), z.nets);
    let mut bytes: Buffer = [0; LENGTH];
    let mut out: Outputs = [0; 65536];
    let mut first = None;
    bytes[CONSTANTS + 1] = 1;
    for cycle in 0..call.k {
        bytes[ROW..ROW + z.inputs].copy_from_slice(call.row(z, cycle));
        let now = cycle % 2 * ODD;
        match cycle {
            0 => start(&call, z, &mut bytes, &mut out),
            _ if now == 0 => work_out::<0, ODD>(image, &mut bytes, &mut out),
            _ => work_out::<ODD, 0>(image, &mut bytes, &mut out),
        }
        call.slot(z, cycle).copy_from_slice(&out[..z.outputs]);
        let nets = &bytes[now..now + n];
        if first.is_none() {
            first = plain::verdict(image, nets).map(|net| (cycle, net));
        }
        if cycle + 1 == call.k {
            plain::clock(image, nets, call.state);
        }
    }
    first
}

/// Cycle 0, in which the REGs show the state.
fn start(call: &Call, z: Sizes, bytes: &mut Buffer, out: &mut Outputs) {
    let nets = &mut bytes[..z.nets];
    let image = accepted(call.image);
    plain::work_out(image, call.row(z, 0), call.state, nets);
    plain::write_outputs(image, nets, &mut out[..z.outputs]);
    for i in 0..z.nets {
        bytes[INVERSES + i] = bytes[i] ^ 1;
    }
}

/// Where pin a of a kind is looked for. `counted` is all ones for an INPUT, whose
/// place is further on by the INPUTs before it, and else 0.
#[derive(Clone, Copy, Default)]
struct Entry {
    base: u16,
    counted: u16,
}

/// The entries of all kinds.
fn entries(now: usize, before: usize) -> [Entry; 256] {
    let entry = |base: usize, counted: u16| Entry {
        base: base as u16,
        counted,
    };
    let mut entries = [entry(now, 0); 256];
    entries[0] = entry(CONSTANTS, 0);
    entries[1] = entry(ROW, u16::MAX);
    entries[2] = entry(before, 0);
    entries
}

/// The bytes of all nets, and the outputs.
fn work_out<const NOW: usize, const BEFORE: usize>(
    image: Image,
    bytes: &mut Buffer,
    out: &mut Outputs,
) {
    let entries = entries(NOW, BEFORE);
    let (mut i, mut inputs, mut outputs) = (0u16, 0u16, 0u16);
    for net in image.nets() {
        let [a, b, c] = net.operands.map(usize::from);
        let kind = usize::from(net.kind);
        let entry = entries[kind];
        let taken = usize::from(inputs & entry.counted);
        let pin_a = usize::from(bytes[usize::from(entry.base) + a + taken]);
        let pin_b = usize::from(bytes[NOW + b]);
        let pin_c = usize::from(bytes[NOW + c]);
        let byte = WIDE[((kind * 4 + pin_a) * 4 + pin_b) * 4 + pin_c];
        bytes[NOW + usize::from(i)] = byte;
        bytes[INVERSES + NOW + usize::from(i)] = byte ^ 1;
        out[usize::from(outputs)] = byte;
        i = i.wrapping_add(1);
        inputs = inputs.wrapping_sub(entry.counted);
        outputs = outputs.wrapping_add(u16::from(net.kind >= OUT));
    }
}
