//! The operands that each kind lists: pins, and settings with a largest value.

use tracker::kinds::{AND, CONST, INVERTED, MUX, NOT, OR, OUT, REG, XOR};

/// How many operands of a kind are pins. They are the first ones.
pub fn pins_of(kind: u8) -> usize {
    match kind {
        REG | NOT | OUT => 1,
        AND | OR | XOR => 2,
        MUX => 3,
        _ => 0,
    }
}

/// The net that a pin names.
pub fn net_of(pin: u16) -> usize {
    usize::from(pin % INVERTED)
}

/// A pin of this kind, at the net with this number, names a net below this limit.
pub fn limit_of(kind: u8, number: usize, size: usize) -> usize {
    match kind {
        REG => size,
        _ => number,
    }
}

/// The operand that is no pin but is listed, and its largest good value.
pub fn setting_of(kind: u8) -> Option<(usize, u16)> {
    match kind {
        CONST => Some((0, 1)),
        REG => Some((1, 2)),
        OUT => Some((1, 1)),
        _ => None,
    }
}

/// How many operands of a kind are listed. They are the first ones.
pub fn listed_of(kind: u8) -> usize {
    match setting_of(kind) {
        Some((index, _)) => index + 1,
        None => pins_of(kind),
    }
}
