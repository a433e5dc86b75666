//! The counts of a good netlist, from which the right lengths of all buffers
//! follow.

use crate::call::Call;
use crate::name::Name;
use crate::states;
use reference::GROUP_LENGTHS;
use tracker::kinds::OUT;
use tracker::{image_length, Net, Sizes, MOST_CYCLES, MOST_NETS};

#[derive(Clone, Debug)]
pub struct Counts {
    pub nets: usize,
    pub inputs: usize,
    pub registers: usize,
    pub outputs: usize,
    /// The number of nets of the doubled netlist, which may be above 8,192.
    pub doubled: usize,
    /// The net numbers of the outputs.
    pub outs: Vec<usize>,
    /// The first net of each net's group in the doubled netlist, and behind
    /// them `doubled`.
    pub groups: Vec<usize>,
}

impl Counts {
    pub fn of(nets: &[Net]) -> Counts {
        let sizes = Sizes::of(nets);
        let outs = (0..nets.len()).filter(|number| nets[*number].kind == OUT);
        let mut groups = vec![0];
        for net in nets {
            groups.push(groups[groups.len() - 1] + GROUP_LENGTHS[usize::from(net.kind)]);
        }
        Counts {
            nets: sizes.nets,
            inputs: sizes.inputs,
            registers: sizes.registers,
            outputs: sizes.outputs,
            doubled: groups[nets.len()],
            outs: outs.collect(),
            groups,
        }
    }

    /// A step, a run or a static run has a good k and buffers of the right lengths.
    pub fn fit(&self, call: &Call) -> bool {
        let (rows, filled) = match call.name {
            Name::Step => (self.inputs, self.nets),
            Name::Run | Name::StaticRun if call.k <= MOST_CYCLES => {
                (call.k * self.inputs, call.k * self.outputs)
            }
            _ => return false,
        };
        let state = self.state_length(call.name);
        call.state.len() == state && call.rows.len() == rows && call.filled.len() == filled
    }

    /// The right length of the state of a call, which has a count unless the call is
    /// static.
    pub fn state_length(&self, name: Name) -> usize {
        if name.has_count() {
            states::length(self.registers)
        } else {
            self.registers
        }
    }

    /// The doubled netlist is not above 8,192 nets.
    pub fn doubles(&self) -> bool {
        self.doubled <= MOST_NETS
    }

    /// The exact length of the doubled image.
    pub fn doubled_length(&self) -> usize {
        image_length(self.doubled)
    }

    /// The exact length of the pages of k cycles. For a k far above 4,096 it is what
    /// is left of the length once its high bits are lost.
    pub fn page_length(&self, k: usize) -> usize {
        let pages = k / 64 + usize::from(k % 64 > 0);
        pages.wrapping_mul(71 * (1 + self.outputs))
    }

    /// The value net of a net in the doubled netlist.
    pub fn value_net(&self, number: usize) -> usize {
        self.groups[number]
    }

    /// The mark net of a net in the doubled netlist.
    pub fn mark_net(&self, number: usize) -> usize {
        self.groups[number + 1] - 1
    }
}
