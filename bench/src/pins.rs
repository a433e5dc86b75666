//! The pins of a net: the operands that name a net, and what each says.

use crate::accepted::accepted;
use tracker::kinds::{CONST, INPUT, INVERTED, MUX, NOT, OUT, REG};
use tracker::Net;

/// How many operands of a kind are pins. They are the first ones.
pub fn pins_of(kind: u8) -> usize {
    match kind {
        CONST | INPUT => 0,
        REG | NOT | OUT => 1,
        MUX => 3,
        _ => 2,
    }
}

/// The pins of a net.
pub fn pins(net: &Net) -> &[u16] {
    &net.operands[..pins_of(net.kind)]
}

/// The net that a pin names.
#[inline]
pub fn net_of(pin: u16) -> usize {
    usize::from(pin & !INVERTED)
}

/// Whether a pin reads the value of its net inverted.
#[inline]
pub fn is_inverted(pin: u16) -> bool {
    pin >= INVERTED
}

/// How many pins of a net are inverted.
pub fn inverted_pins(net: &Net) -> usize {
    pins(net).iter().filter(|pin| is_inverted(**pin)).count()
}

/// Whether an accepted image has inverted pins.
pub fn has_inverted_pins(image: &[u8]) -> bool {
    accepted(image).nets().any(|net| inverted_pins(&net) > 0)
}
