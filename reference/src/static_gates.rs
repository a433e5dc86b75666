//! The gates of a static run: request L4 of document 02.
//!
//! A code is 0 to 3, a known byte as in a run, or 4 for an unknown trusted bit,
//! or 6 for an unknown untrusted one. At each gate every unknown pin is filled
//! both ways, and the gate of a run gives a byte for each filling. The fillings of
//! one pin have nothing to do with those of another, also when both pins read the
//! same net. The calls pass only codes to these functions. Any other byte is
//! filled with itself alone.

use crate::gates::{
    and_byte, is_marked, mux_byte, net_byte, not_byte, or_byte, value, xor_byte, Gates,
};

/// The code of an unknown trusted bit.
const UNKNOWN_TRUSTED: u8 = 4;

/// The code of an unknown untrusted bit.
pub(crate) const UNKNOWN_UNTRUSTED: u8 = 6;

/// The rules of a static run. An OUT passes the code of its pin on, which is
/// also what its fillings give.
pub(crate) const GATES_ON_CODES: Gates = Gates {
    not: not_code,
    and: and_code,
    or: or_code,
    xor: xor_code,
    mux: mux_code,
};

/// NOT of each filling. The codes 4 and 6 stay.
pub fn not_code(a: u8) -> u8 {
    let mut bytes = Vec::new();
    for a in fillings(&a) {
        bytes.push(not_byte(*a));
    }
    code_of(&bytes)
}

/// AND of each filling.
pub fn and_code(a: u8, b: u8) -> u8 {
    fill_two_pins(and_byte, a, b)
}

/// OR of each filling.
pub fn or_code(a: u8, b: u8) -> u8 {
    fill_two_pins(or_byte, a, b)
}

/// XOR of each filling. Of one unknown net with itself it is unknown, since each
/// of the two pins is filled both ways.
pub fn xor_code(a: u8, b: u8) -> u8 {
    fill_two_pins(xor_byte, a, b)
}

/// MUX of each filling. The whole MUX is filled, not a composition of gates. With
/// an untrusted select, also an unknown one, it is unmarked only if a and b are
/// the same known and trusted code.
pub fn mux_code(a: u8, b: u8, c: u8) -> u8 {
    let mut bytes = Vec::new();
    for a in fillings(&a) {
        for b in fillings(&b) {
            for c in fillings(&c) {
                bytes.push(mux_byte(*a, *b, *c));
            }
        }
    }
    code_of(&bytes)
}

/// A gate of two pins, filled.
fn fill_two_pins(gate: fn(u8, u8) -> u8, a: u8, b: u8) -> u8 {
    let mut bytes = Vec::new();
    for a in fillings(&a) {
        for b in fillings(&b) {
            bytes.push(gate(*a, *b));
        }
    }
    code_of(&bytes)
}

/// The bytes with which a pin of this code is filled. An unknown bit is both
/// values, with its mark. A known one is its own byte alone.
fn fillings(code: &u8) -> &[u8] {
    match *code {
        UNKNOWN_TRUSTED => &[0, 1],
        UNKNOWN_UNTRUSTED => &[2, 3],
        _ => std::slice::from_ref(code),
    }
}

/// The code of the bytes that the fillings gave. The value is known if all of
/// them agree in it, and the mark is 1 if any of them is marked.
fn code_of(bytes: &[u8]) -> u8 {
    let first = value(bytes[0]);
    let is_known = bytes.iter().all(|byte| value(*byte) == first);
    let marked = bytes.iter().any(|byte| is_marked(*byte));
    match (is_known, marked) {
        (true, _) => net_byte(first, marked),
        (false, false) => UNKNOWN_TRUSTED,
        (false, true) => UNKNOWN_UNTRUSTED,
    }
}
