//! How big the doubled netlist gets: request L1 of document 02.
//!
//! The figures are worked out from the kinds of the source's nets. No group is
//! built and no byte is written.

use crate::answers::Refusal;
use crate::check::{check, MOST_NETS};
use crate::image::image_length;
use crate::netlist::{Kind, Net};

/// Group lengths for kinds 0 to 8.
pub const GROUP_LENGTHS: [usize; 9] = [2, 2, 2, 2, 6, 8, 2, 7, 2];

/// The figures of a doubled netlist: its nets, the bytes of its image, and as
/// `kinds[k]` the number of its nets of kind k.
#[derive(Debug, Clone, Copy, PartialEq, Eq)]
pub struct DoubledSize {
    pub nets: usize,
    pub bytes: usize,
    pub kinds: [usize; 9],
}

impl DoubledSize {
    /// The figures of no group at all: the head of an image alone.
    fn of_no_group() -> DoubledSize {
        DoubledSize {
            nets: 0,
            bytes: image_length(0),
            kinds: [0; 9],
        }
    }

    /// The figures with the group of one more net of the source.
    fn with_group(self, kind: Kind) -> DoubledSize {
        let nets = self.nets + group_length(kind);
        let mut kinds = self.kinds;
        for member in group_kinds(kind) {
            kinds[usize::from(member.byte())] += 1;
        }
        DoubledSize {
            nets,
            bytes: image_length(nets),
            kinds,
        }
    }
}

/// The figures of the doubled netlist, which are those of the image that
/// doubling writes. It meets 1 to 8 and 15.
pub fn doubled_size(image: &[u8]) -> Result<DoubledSize, Refusal> {
    let netlist = check(image)?;
    size_within_limit(&netlist.nets)
}

/// The figures of the doubled netlist, and refusal 15: it has more than 8,192
/// nets. The place of 15 is 0.
pub(crate) fn size_within_limit(nets: &[Net]) -> Result<DoubledSize, Refusal> {
    let size = size_of(nets);
    if size.nets > MOST_NETS {
        return Err(Refusal::plain(15));
    }
    Ok(size)
}

/// The figures of all groups together. The limit is not looked at.
fn size_of(nets: &[Net]) -> DoubledSize {
    let mut size = DoubledSize::of_no_group();
    for net in nets {
        size = size.with_group(net.kind());
    }
    size
}

/// The length of the group of a net of this kind.
pub(crate) fn group_length(kind: Kind) -> usize {
    GROUP_LENGTHS[usize::from(kind.byte())]
}

/// The kinds of the nets of a group, in the order of document 01. The second net
/// of the group of a MUX is an XOR, by request L5 of document 02.
fn group_kinds(kind: Kind) -> &'static [Kind] {
    use Kind::{And, Const, Input, Mux, Not, Or, Out, Reg, Xor};
    match kind {
        Const => &[Const, Const],
        Input => &[Input, Input],
        Reg => &[Reg, Reg],
        Not => &[Not, Or],
        And => &[And, And, And, And, Or, Or],
        Or => &[Or, Not, Not, And, And, And, Or, Or],
        Xor => &[Xor, Or],
        Mux => &[Mux, Xor, Or, Or, And, Mux, Or],
        Out => &[Out, Out],
    }
}

#[cfg(test)]
mod tests {
    use super::*;
    use crate::netlist::Pin;

    #[test]
    fn a_group_has_as_many_kinds_as_its_length() {
        for byte in 0..=8 {
            let kind = Kind::from_byte(byte).unwrap();
            assert_eq!(group_kinds(kind).len(), group_length(kind));
        }
    }

    // A CONST and N - 1 ORs have 2 + 8 * (N - 1) = 8 * N - 6 doubled nets. The
    // kinds of an OR's group are 3 ORs, 2 NOTs and 3 ANDs. With N = 8,192 there
    // are 65,530 nets and 8 + 7 * 65,530 = 458,718 bytes.
    #[test]
    fn a_const_and_ors_have_8n_minus_6_nets_for_every_n() {
        let mut size = DoubledSize::of_no_group().with_group(Kind::Const);
        for n in 1..=MOST_NETS {
            let ors = n - 1;
            assert_eq!(size.nets, 8 * n - 6);
            assert_eq!(size.bytes, 8 + 7 * (8 * n - 6));
            assert_eq!(size.kinds, [2, 0, 0, 2 * ors, 3 * ors, 3 * ors, 0, 0, 0]);
            if n < MOST_NETS {
                size = size.with_group(Kind::Or);
            }
        }
        assert_eq!((size.nets, size.bytes), (65530, 458718));
    }

    // The figures of a list of nets are those of its groups one by one, also
    // above the limit, where 15 is drawn. 8 * 1,025 - 6 is 8,194.
    #[test]
    fn the_figures_above_the_limit() {
        let zero = Pin::plain(0);
        let mut nets = vec![Net::Const(true)];
        nets.extend(vec![Net::Or(zero, zero); 1024]);
        assert_eq!(size_of(&nets).nets, 8194);
        assert_eq!(size_within_limit(&nets), Err(Refusal::plain(15)));
        nets.extend(vec![Net::Or(zero, zero); 7167]);
        assert_eq!(size_of(&nets).nets, 65530);
        assert_eq!(size_within_limit(&nets), Err(Refusal::plain(15)));
    }
}
