//! One net of an image.

/// A net as an image holds it: its kind and its operands.
///
/// Nothing is checked. The kind may be any byte and an operand any number, so a
/// net that [`check`](crate::check) refuses can be written and read too.
///
/// ```
/// use tracker::{kinds, Net};
///
/// let and = Net::new(kinds::AND, 2, 3, 0);
/// assert_eq!(and.kind, 4);
/// assert_eq!(and.operands, [2, 3, 0]);
/// ```
#[derive(Debug, Clone, Copy, PartialEq, Eq, Hash)]
pub struct Net {
    /// The kind, one of [`kinds`](crate::kinds) in a netlist.
    pub kind: u8,
    /// The operands a, b and c. A pin among them may have the bit
    /// [`kinds::INVERTED`](crate::kinds::INVERTED).
    pub operands: [u16; 3],
}

impl Net {
    /// A net of a kind with the operands a, b and c.
    #[must_use]
    pub const fn new(kind: u8, a: u16, b: u16, c: u16) -> Net {
        Net {
            kind,
            operands: [a, b, c],
        }
    }
}
