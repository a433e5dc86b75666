//! Stand-ins with a wrong rule of a gate or of an inverted pin.

use crate::by_rule::by_rule;
use reference::{and_byte, mux_byte, not_byte, or_byte, xor_byte};
use tests::listed::{net_of, pins_of};
use tests::Calls;
use tracker::kinds::{AND, INVERTED, MUX, NOT, OR, OUT, REG, XOR};

/// The rules by which cycles are worked out.
pub struct Rules {
    /// The byte of a gate or an OUT, by its kind, its operands, and the bytes that
    /// its pins read.
    pub gate: fn(u8, [u16; 3], [u8; 3]) -> u8,
    /// The byte that an inverted pin reads, by the kind that it belongs to, its
    /// index, and the byte of its net.
    pub inverted: fn(u8, usize, u8) -> u8,
    /// Whether a protected OUT with this byte is a flow.
    pub marked: fn(u8) -> bool,
}

const RIGHT: Rules = Rules {
    gate: right,
    inverted: |_, _, byte| not_byte(byte),
    marked: |byte| byte >= 2,
};

/// All rules, each with one that is wrong.
#[rustfmt::skip]
pub const RULES: [Rules; 10] = [
    Rules { gate: any_pin_marks, ..RIGHT },
    Rules { gate: chosen_pin_marks, ..RIGHT },
    Rules { gate: own_xor_is_clear, ..RIGHT },
    Rules { gate: plain_marks, ..RIGHT },
    Rules { inverted: |_, _, byte| byte ^ 3, ..RIGHT },
    Rules { inverted: |_, _, byte| not_byte(byte) % 2, ..RIGHT },
    Rules { inverted: |kind, _, byte| plain_if(kind == REG, byte), ..RIGHT },
    Rules { inverted: |kind, _, byte| plain_if(kind == OUT, byte), ..RIGHT },
    Rules { inverted: |kind, index, byte| plain_if(kind == MUX && index == 2, byte), ..RIGHT },
    Rules { gate: composed_mux, ..RIGHT },
];

/// Marks a gate whenever a pin is marked.
pub const ANY_PIN_MARKS: Calls = by_rule::<0>();

/// Takes the mark of the pin that a MUX chooses, also where c is marked.
pub const CHOSEN_PIN_MARKS: Calls = by_rule::<1>();

/// Clears the mark of the XOR of a net with itself.
pub const OWN_XOR_IS_CLEAR: Calls = by_rule::<2>();

/// Works out marks from the values of the nets, as if no pin were inverted.
pub const PLAIN_MARKS: Calls = by_rule::<3>();

/// Inverts the mark together with the value.
pub const INVERTS_THE_MARK: Calls = by_rule::<4>();

/// Drops the mark at an inverted pin.
pub const INVERTED_IS_TRUSTED: Calls = by_rule::<5>();

/// Has a register take the byte of its net as it is.
pub const PLAIN_CLOCK: Calls = by_rule::<6>();

/// Has an OUT show the byte of its net as it is.
pub const PLAIN_OUT: Calls = by_rule::<7>();

/// Has a MUX choose by the byte of net c as it is.
pub const PLAIN_SELECT: Calls = by_rule::<8>();

/// Composes a MUX of a NOT, two ANDs and an OR, so that a marked c marks it between two
/// trusted ones too.
pub const COMPOSED_MUX: Calls = by_rule::<9>();

/// What an inverted pin reads that is not inverted in some cases.
fn plain_if(is_plain: bool, byte: u8) -> u8 {
    if is_plain {
        byte
    } else {
        not_byte(byte)
    }
}

/// The right byte of a gate or an OUT.
pub fn right(kind: u8, _: [u16; 3], [a, b, c]: [u8; 3]) -> u8 {
    match kind {
        NOT => not_byte(a),
        AND => and_byte(a, b),
        OR => or_byte(a, b),
        XOR => xor_byte(a, b),
        MUX => mux_byte(a, b, c),
        _ => a,
    }
}

fn any_pin_marks(kind: u8, operands: [u16; 3], bytes: [u8; 3]) -> u8 {
    let marked = bytes[..pins_of(kind)].iter().any(|byte| *byte >= 2);
    right(kind, operands, bytes) % 2 + 2 * u8::from(marked)
}

fn chosen_pin_marks(kind: u8, operands: [u16; 3], [a, b, c]: [u8; 3]) -> u8 {
    match kind {
        MUX => mux_byte(a, b, c % 2),
        _ => right(kind, operands, [a, b, c]),
    }
}

fn composed_mux(kind: u8, operands: [u16; 3], [a, b, c]: [u8; 3]) -> u8 {
    match kind {
        MUX => or_byte(and_byte(a, not_byte(c)), and_byte(b, c)),
        _ => right(kind, operands, [a, b, c]),
    }
}

fn own_xor_is_clear(kind: u8, operands: [u16; 3], bytes: [u8; 3]) -> u8 {
    match kind {
        XOR if net_of(operands[0]) == net_of(operands[1]) => right(kind, operands, bytes) % 2,
        _ => right(kind, operands, bytes),
    }
}

fn plain_marks(kind: u8, operands: [u16; 3], bytes: [u8; 3]) -> u8 {
    let inverted = operands.map(|operand| u8::from(operand >= INVERTED));
    let plain = [0, 1, 2].map(|index| bytes[index] ^ inverted[index]);
    let mark = right(kind, operands, plain) / 2;
    right(kind, operands, bytes) % 2 + 2 * mark
}
