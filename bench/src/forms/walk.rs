//! The walk of the form "entries".
//!
//! For each kind an entry says where pin a is looked for: a CONST's in the two
//! constants, an INPUT's in the row, a REG's in the nets of the cycle before,
//! every other's in the nets of this cycle. So every net takes the same few
//! instructions, whatever its kind, and there is no branch to mispredict. Nets
//! stand with their inverses, those of the cycle before as well.

use super::both::{Both, INVERSES};
use super::table::TABLE;
use tracker::{kind_place, operand_place, MOST_NETS};

static CONSTANTS: [u8; 2] = [0, 1];

/// What a cycle reads and writes beside the image. The nets of even and of odd
/// cycles stand apart. The other buffers have a byte to spare.
pub struct Buffers {
    pub nets: [Both; 2],
    pub row: [u8; MOST_NETS + 1],
    pub outputs: [u8; MOST_NETS + 1],
    pub policies: [u8; MOST_NETS + 1],
}

impl Buffers {
    #[inline(always)]
    pub fn new() -> Buffers {
        Buffers {
            nets: [Both::empty(), Both::empty()],
            row: [0; MOST_NETS + 1],
            outputs: [0; MOST_NETS + 1],
            policies: [0; MOST_NETS + 1],
        }
    }

    /// Whether a protected output is marked.
    fn flows(&self, count: usize) -> bool {
        let bytes = self.outputs[..count].iter();
        let pairs = bytes.zip(&self.policies[..count]);
        pairs.fold(0, |any, (byte, policy)| any | ((byte >> 1) & policy)) != 0
    }
}

/// Where pin a of a kind is looked for. `counted` is all ones for an INPUT, whose
/// place is further on by the INPUTs before it, and else 0.
#[derive(Clone, Copy)]
struct Entry {
    base: *const u8,
    counted: usize,
}

/// The bytes of an entry.
const ENTRY: usize = std::mem::size_of::<Entry>();

/// Where a walk reads and writes.
struct Places {
    entries: [Entry; 9],
    table: *const u8,
    kinds: *const u8,
    nets: *mut u8,
    outputs: *mut u8,
    policies: *mut u8,
}

/// How far a walk has come. It stands apart from the places, so that it is kept
/// in registers.
struct Counts {
    inputs: usize,
    outputs: usize,
}

/// The bytes of all nets and the outputs. With POLICIES it says whether a
/// protected output is marked. The image has been accepted.
pub unsafe fn walk<const POLICIES: bool>(
    image: *const u8,
    n: usize,
    now: usize,
    buffers: &mut Buffers,
) -> bool {
    let kinds = image.add(kind_place(0));
    let mut pins = image.add(operand_place(n, 0, 0)).cast::<u16>();
    let places = Places::new(kinds, now, buffers);
    let mut counts = Counts {
        inputs: 0,
        outputs: 0,
    };
    let whole = n & !3;
    for i in (0..whole).step_by(4) {
        places.net::<POLICIES>(i, pins, &mut counts);
        places.net::<POLICIES>(i + 1, pins.add(3), &mut counts);
        places.net::<POLICIES>(i + 2, pins.add(6), &mut counts);
        places.net::<POLICIES>(i + 3, pins.add(9), &mut counts);
        pins = pins.add(12);
    }
    for i in whole..n {
        places.net::<POLICIES>(i, pins, &mut counts);
        pins = pins.add(3);
    }
    POLICIES && buffers.flows(counts.outputs)
}

impl Places {
    fn new(kinds: *const u8, now: usize, buffers: &mut Buffers) -> Places {
        let before = buffers.nets[1 - now].as_mut_ptr();
        let nets = buffers.nets[now].as_mut_ptr();
        let entry = |base: *const u8, counted: usize| Entry { base, counted };
        let mut entries = [entry(nets, 0); 9];
        entries[0] = entry(CONSTANTS.as_ptr(), 0);
        entries[1] = entry(buffers.row.as_ptr(), usize::MAX);
        entries[2] = entry(before, 0);
        Places {
            entries,
            table: TABLE.as_ptr(),
            kinds,
            nets,
            outputs: buffers.outputs.as_mut_ptr(),
            policies: buffers.policies.as_mut_ptr(),
        }
    }

    /// The byte of net i, whose operands stand at `pins`. The byte is written as
    /// the next output too, and stays there if the net is an OUT.
    #[inline(always)]
    unsafe fn net<const POLICIES: bool>(&self, i: usize, pins: *const u16, counts: &mut Counts) {
        let read = |k: usize| usize::from(u16::from_le(pins.add(k).read_unaligned()));
        let pin = |net: usize| usize::from(*self.nets.add(net));
        // The kind times 16 serves for the entry and for the table.
        let kind = usize::from(*self.kinds.add(i)) * ENTRY;
        let entry = *self.entries.as_ptr().byte_add(kind);
        let b = read(1);
        let place = read(0) + (counts.inputs & entry.counted);
        let pin_a = usize::from(*entry.base.add(place));
        let index = (kind + pin_a * 4 + pin(b)) * 4 + pin(read(2));
        let byte = *self.table.add(index);
        *self.nets.add(i) = byte;
        *self.outputs.add(counts.outputs) = byte;
        if POLICIES {
            *self.policies.add(counts.outputs) = b as u8;
        }
        *self.nets.add(INVERSES + i) = byte ^ 1;
        counts.inputs = counts.inputs.wrapping_sub(entry.counted);
        counts.outputs += usize::from(kind > 7 * ENTRY);
    }
}
