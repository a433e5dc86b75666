//! Where the parts of an image stand: four sizes of two bytes each, then a byte
//! for the kind of each net, then the operands a, b and c of each net, two bytes
//! each. The low byte comes first.

/// The bytes of the four sizes.
pub(crate) const HEAD: usize = 8;

/// The bytes of one operand.
const OPERAND: usize = 2;

/// The bytes of the operands of one net.
pub(crate) const OPERANDS: usize = 3 * OPERAND;

/// The length in bytes of an image of so many nets: 8 + 7 × N.
///
/// ```
/// assert_eq!(tracker::image_length(16), 120);
/// ```
#[inline]
#[must_use]
pub const fn image_length(nets: usize) -> usize {
    operand_place(nets, nets, 0)
}

/// The index of a net's kind in an image.
///
/// ```
/// assert_eq!(tracker::kind_place(5), 13);
/// ```
#[inline]
#[must_use]
pub const fn kind_place(net: usize) -> usize {
    HEAD + net
}

/// The index of the low byte of a net's operand, 0 for a, 1 for b and 2 for c,
/// in an image of so many nets. The high byte stands behind it.
///
/// ```
/// // Operand b of the last of six nets stands behind 8 bytes of sizes, six
/// // kinds, the operands of five nets, and operand a.
/// assert_eq!(tracker::operand_place(6, 5, 1), 8 + 6 + 5 * 6 + 2);
/// ```
#[inline]
#[must_use]
pub const fn operand_place(nets: usize, net: usize, operand: usize) -> usize {
    HEAD + nets + OPERANDS * net + OPERAND * operand
}
