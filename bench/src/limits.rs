//! The limits of a net's operands, by its kind, so that a net is checked without a
//! branch on the kind.

use tracker::kinds::INVERTED;
use tracker::Net;

/// What stands for all numbers that are no kind.
pub const NO_KIND: usize = 9;

/// How an operand is limited: which of the limits it has to be below, and which
/// of its bits are looked at.
#[derive(Clone, Copy)]
struct Held {
    place: u16,
    bits: u16,
}

const fn held(place: u16, bits: u16) -> Held {
    Held { place, bits }
}

/// All bits of an operand, and those of a pin that are its net.
const ALL: u16 = u16::MAX;
const NET: u16 = !INVERTED;

/// No operand at all, one that is not listed, a flag, a start, and pins that name
/// any net or a net below their own.
const NONE: Held = held(0, ALL);
const UNLISTED: Held = held(1, ALL);
const FLAG: Held = held(2, ALL);
const START: Held = held(3, ALL);
const ANY: Held = held(4, NET);
const BELOW: Held = held(5, NET);

/// For each kind, how its operands a, b and c are limited.
const OF_KIND: [[Held; 3]; NO_KIND + 1] = [
    [FLAG, UNLISTED, UNLISTED],
    [UNLISTED, UNLISTED, UNLISTED],
    [ANY, START, UNLISTED],
    [BELOW, UNLISTED, UNLISTED],
    [BELOW, BELOW, UNLISTED],
    [BELOW, BELOW, UNLISTED],
    [BELOW, BELOW, UNLISTED],
    [BELOW, BELOW, BELOW],
    [BELOW, FLAG, UNLISTED],
    [NONE, NONE, NONE],
];

/// The limits of one net, each at its place.
pub struct Limits([u16; 8]);

impl Limits {
    /// The limits of net 0 of n.
    pub fn new(n: usize) -> Limits {
        Limits([0, 1, 2, 3, n as u16, 0, 0, 0])
    }

    /// The limits of the next net.
    #[inline(always)]
    pub fn move_on(&mut self) {
        self.0[usize::from(BELOW.place)] += 1;
    }

    /// Whether the operands of a net of a kind are below their limits.
    #[inline(always)]
    pub fn allow(&self, kind: usize, net: Net) -> bool {
        let [a, b, c] = OF_KIND[kind];
        let [x, y, z] = net.operands;
        self.holds(a, x) & self.holds(b, y) & self.holds(c, z)
    }

    #[inline(always)]
    fn holds(&self, held: Held, operand: u16) -> bool {
        operand & held.bits < self.0[usize::from(held.place) % 8]
    }
}
