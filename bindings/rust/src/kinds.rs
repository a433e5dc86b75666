//! The kinds of nets, as an image holds them, and the operands of each. An
//! operand that a kind does not list is 0.
//!
//! An operand that names a net is a pin: operand a of REG, NOT and OUT, a and b
//! of AND, OR and XOR, and all three of MUX. A pin with the bit [`INVERTED`]
//! reads the other value of its net.

/// A constant. Operand a is its value, 0 or 1.
pub const CONST: u8 = 0;
/// An input, whose byte is one of the row.
pub const INPUT: u8 = 1;
/// A register. Operand a is the net that it takes at the clock, any net of the
/// netlist; b is its start, 0, 1, or 2 for none given. Without a start it wakes
/// untrusted.
pub const REG: u8 = 2;
/// NOT of net a.
pub const NOT: u8 = 3;
/// AND of the nets a and b.
pub const AND: u8 = 4;
/// OR of the nets a and b.
pub const OR: u8 = 5;
/// XOR of the nets a and b.
pub const XOR: u8 = 6;
/// Net a if net c is 0, and net b if it is 1.
pub const MUX: u8 = 7;
/// An output, which passes net a on. Operand b is its policy, 0 for free and 1
/// for protected.
pub const OUT: u8 = 8;

/// The top bit of a pin, whose other bits name its net. With this bit the pin
/// reads the net's value inverted, 1 for 0 and 0 for 1, and the net's mark as it
/// is. A register reads its pin at the clock, so its start is taken as it stands.
/// An operand that is no pin must not have the bit.
///
/// ```
/// use tracker::kinds::{AND, INVERTED};
/// use tracker::Net;
///
/// // AND of net 2 and of the inverted net 3.
/// let and = Net::new(AND, 2, INVERTED + 3, 0);
/// assert_eq!(and.operands, [2, 32_771, 0]);
/// ```
pub const INVERTED: u16 = 32_768;

/// The names of the kinds, by rising number.
const NAMES: [&str; 9] = [
    "CONST", "INPUT", "REG", "NOT", "AND", "OR", "XOR", "MUX", "OUT",
];

/// The name of a kind, or none where the number is no kind's.
///
/// ```
/// use tracker::kinds;
///
/// assert_eq!(kinds::name(kinds::MUX), Some("MUX"));
/// assert_eq!(kinds::name(9), None);
/// ```
#[must_use]
pub fn name(kind: u8) -> Option<&'static str> {
    NAMES.get(usize::from(kind)).copied()
}
