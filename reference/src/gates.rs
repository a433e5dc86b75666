//! The gate rules of document 01, on net bytes. MUX follows its truth table, by
//! request L5 of document 02.
//!
//! A net byte is value + 2 * mark. Mark 0 is trusted, mark 1 untrusted. The
//! calls pass only bytes 0 to 3 to these functions. Of any other byte the two
//! low bits alone are read.

/// What each gate gives for the bytes of its pins. A cycle works its nets out by
/// such a set of rules.
pub(crate) struct Gates {
    pub not: fn(u8) -> u8,
    pub and: fn(u8, u8) -> u8,
    pub or: fn(u8, u8) -> u8,
    pub xor: fn(u8, u8) -> u8,
    pub mux: fn(u8, u8, u8) -> u8,
}

/// The rules of a run.
pub(crate) const GATES_ON_BYTES: Gates = Gates {
    not: not_byte,
    and: and_byte,
    or: or_byte,
    xor: xor_byte,
    mux: mux_byte,
};

/// The value of a net byte.
pub(crate) fn value(byte: u8) -> bool {
    byte % 2 == 1
}

/// The mark of a net byte.
fn mark(byte: u8) -> bool {
    (byte / 2) % 2 == 1
}

/// The net byte with this value and this mark.
pub(crate) fn net_byte(value: bool, mark: bool) -> u8 {
    u8::from(value) + 2 * u8::from(mark)
}

/// A CONST has its value and mark 0.
pub(crate) fn const_byte(value: bool) -> u8 {
    net_byte(value, false)
}

/// The mark of byte is 1. The codes of a static run (request L4 of document 02)
/// have their mark in the same bit: 4 is not marked and 6 is.
pub(crate) fn is_marked(byte: u8) -> bool {
    mark(byte)
}

/// NOT has the pin's mark.
pub fn not_byte(a: u8) -> u8 {
    net_byte(!value(a), mark(a))
}

/// AND is marked if (ta and b) or (tb and a) or (ta and tb).
pub fn and_byte(a: u8, b: u8) -> u8 {
    let (va, ta) = (value(a), mark(a));
    let (vb, tb) = (value(b), mark(b));
    let marked = (ta && vb) || (tb && va) || (ta && tb);
    net_byte(va && vb, marked)
}

/// OR is marked if (ta and not b) or (tb and not a) or (ta and tb).
pub fn or_byte(a: u8, b: u8) -> u8 {
    let (va, ta) = (value(a), mark(a));
    let (vb, tb) = (value(b), mark(b));
    let marked = (ta && !vb) || (tb && !va) || (ta && tb);
    net_byte(va || vb, marked)
}

/// XOR is marked if ta or tb. This holds also when both pins are the same net.
pub fn xor_byte(a: u8, b: u8) -> u8 {
    let (va, ta) = (value(a), mark(a));
    let (vb, tb) = (value(b), mark(b));
    let marked = ta || tb;
    net_byte(va != vb, marked)
}

/// MUX gives a if c is 0 and b if c is 1.
///
/// If c is unmarked, it has the mark of the pin chosen. If c is marked, it is
/// marked if a and b differ or ta or tb is 1. So a marked select between two equal
/// trusted values leaves it unmarked.
pub fn mux_byte(a: u8, b: u8, c: u8) -> u8 {
    let (va, ta) = (value(a), mark(a));
    let (vb, tb) = (value(b), mark(b));
    let (vc, tc) = (value(c), mark(c));
    let chosen_value = if vc { vb } else { va };
    let chosen_mark = if vc { tb } else { ta };
    let marked = if tc {
        va != vb || ta || tb
    } else {
        chosen_mark
    };
    net_byte(chosen_value, marked)
}
