//! Inverted pins for the tests: request L3 of document 02.

use crate::images::*;
use reference::{Net, Netlist, Pin, Policy, Start};

/// The operand of a pin that reads this net inverted: the net's number with the
/// top bit, 32,768.
pub const fn inverted(net: u16) -> u16 {
    net + 32768
}

/// The pins of a kind. They are the first of its operands: a of a REG, a NOT and
/// an OUT, a and b of an AND, an OR and an XOR, and all three of a MUX.
pub fn pin_count(kind: u8) -> usize {
    match kind {
        CONST | INPUT => 0,
        REG | NOT | OUT => 1,
        AND | OR | XOR => 2,
        MUX => 3,
        _ => panic!("no kind: {kind}"),
    }
}

/// The pins of an entry, in the order a, b, c.
pub fn pins(entry: Entry) -> Vec<u16> {
    [entry.1, entry.2, entry.3][..pin_count(entry.0)].to_vec()
}

/// The entry with its pins changed, in the order a, b, c. Its other operands
/// stay.
pub fn change_pins(entry: Entry, mut change: impl FnMut(u16) -> u16) -> Entry {
    let mut operands = [entry.1, entry.2, entry.3];
    for pin in &mut operands[..pin_count(entry.0)] {
        *pin = change(*pin);
    }
    (entry.0, operands[0], operands[1], operands[2])
}

/// The nets with the same pins, none of them inverted.
pub fn without_inversions(nets: &[Entry]) -> Vec<Entry> {
    let plain = |pin: u16| pin % 32768;
    nets.iter().map(|net| change_pins(*net, plain)).collect()
}

/// The nets, of which no pin is inverted, with every pin inverted.
pub fn all_inverted(nets: &[Entry]) -> Vec<Entry> {
    nets.iter().map(|net| change_pins(*net, inverted)).collect()
}

/// The entry with each choice of its pins inverted. The first has none of them.
pub fn all_inversions(entry: Entry) -> Vec<Entry> {
    let mut all = Vec::new();
    for choice in 0..1 << pin_count(entry.0) {
        let mut place = 0;
        all.push(change_pins(entry, |pin| {
            place += 1;
            match choice >> (place - 1) & 1 {
                0 => pin,
                _ => inverted(pin),
            }
        }));
    }
    all
}

// The top bit of a u16 is worth 2 to the power 15. Its bytes are 0, 128.
#[test]
fn the_top_bit_is_32768() {
    assert_eq!(inverted(0), 1 << 15);
    assert_eq!(inverted(3).to_le_bytes(), [3, 128]);
}

// Two choices for each pin: 2 for an OUT, whose b is a policy, 4 for an AND and
// 8 for a MUX. A CONST has no pin.
#[test]
fn all_choices_of_inverted_pins() {
    let i = inverted;
    assert_eq!(all_inversions((CONST, 1, 0, 0)), [(CONST, 1, 0, 0)]);
    let outs = [(OUT, 5, 1, 0), (OUT, i(5), 1, 0)];
    assert_eq!(all_inversions(outs[0]), outs);
    let ands = [(3, 4), (i(3), 4), (3, i(4)), (i(3), i(4))];
    let ands = ands.map(|(a, b)| (AND, a, b, 0));
    assert_eq!(all_inversions(ands[0]), ands);
    let muxes = all_inversions((MUX, 3, 4, 5));
    assert_eq!(muxes.len(), 8);
    assert_eq!(muxes[1], (MUX, i(3), 4, 5));
    assert_eq!(muxes[2], (MUX, 3, i(4), 5));
    assert_eq!(muxes[4], (MUX, 3, 4, i(5)));
    assert_eq!(muxes[7], (MUX, i(3), i(4), i(5)));
}

/// The lines of `NINE_KINDS`, in the decoded form, with pins made by a function
/// of the net that they name.
pub fn decoded_nine_kinds(pin: impl Fn(usize) -> Pin) -> Netlist {
    Netlist {
        inputs: 1,
        registers: 1,
        outputs: 1,
        nets: vec![
            Net::Reg(pin(6), Start::NoneGiven),
            Net::Input,
            Net::Const(true),
            Net::Not(pin(1)),
            Net::And(pin(1), pin(3)),
            Net::Or(pin(2), pin(4)),
            Net::Mux(pin(3), pin(4), pin(0)),
            Net::Xor(pin(5), pin(6)),
            Net::Out(pin(7), Policy::Protected),
        ],
    }
}
