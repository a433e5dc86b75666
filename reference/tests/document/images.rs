//! Images for the tests, written apart from the library's own writer.

pub const CONST: u8 = 0;
pub const INPUT: u8 = 1;
pub const REG: u8 = 2;
pub const NOT: u8 = 3;
pub const AND: u8 = 4;
pub const OR: u8 = 5;
pub const XOR: u8 = 6;
pub const MUX: u8 = 7;
pub const OUT: u8 = 8;

/// A kind byte and the operands a, b, c.
pub type Entry = (u8, u16, u16, u16);

/// An image with the given I, R, O and nets. N is the number of nets.
pub fn image(inputs: u16, registers: u16, outputs: u16, nets: &[Entry]) -> Vec<u8> {
    let mut bytes = Vec::new();
    for size in [nets.len() as u16, inputs, registers, outputs] {
        bytes.extend(size.to_le_bytes());
    }
    for net in nets {
        bytes.push(net.0);
    }
    for net in nets {
        for operand in [net.1, net.2, net.3] {
            bytes.extend(operand.to_le_bytes());
        }
    }
    bytes
}

/// An image whose I, R and O are counted from its nets.
pub fn counted(nets: &[Entry]) -> Vec<u8> {
    let count = |kind: u8| nets.iter().filter(|net| net.0 == kind).count() as u16;
    image(count(INPUT), count(REG), count(OUT), nets)
}

/// The counter of document 01, byte for byte by hand.
#[rustfmt::skip]
pub const COUNTER: [u8; 50] = [
    // N 6, I 1, R 1, O 1.
    6, 0, 1, 0, 1, 0, 1, 0,
    // INPUT, REG, NOT, NOT, AND, OUT.
    1, 2, 3, 3, 4, 8,
    // 0 INPUT.
    0, 0, 0, 0, 0, 0,
    // 1 REG(4, start 0).
    4, 0, 0, 0, 0, 0,
    // 2 NOT 1.
    1, 0, 0, 0, 0, 0,
    // 3 NOT 0.
    0, 0, 0, 0, 0, 0,
    // 4 AND(2, 3).
    2, 0, 3, 0, 0, 0,
    // 5 OUT 1, protected.
    1, 0, 1, 0, 0, 0,
];

/// The counter's four rows in document 01.
pub const COUNTER_ROWS: [u8; 4] = [2, 0, 1, 0];

/// One net of each of the nine kinds. The REG pin points forward.
pub const NINE_KINDS: [Entry; 9] = [
    (REG, 6, 2, 0),
    (INPUT, 0, 0, 0),
    (CONST, 1, 0, 0),
    (NOT, 1, 0, 0),
    (AND, 1, 3, 0),
    (OR, 2, 4, 0),
    (MUX, 3, 4, 0),
    (XOR, 5, 6, 0),
    (OUT, 7, 1, 0),
];

/// The netlist of the nine kinds.
pub fn nine_kinds() -> Vec<u8> {
    counted(&NINE_KINDS)
}

/// Two inputs and nothing else: I = 2, R = 0, O = 0.
pub fn two_inputs() -> Vec<u8> {
    counted(&[(INPUT, 0, 0, 0), (INPUT, 0, 0, 0)])
}

/// Three registers, each holding its own byte, with starts 0, 1 and 2.
pub fn three_registers() -> Vec<u8> {
    counted(&[(REG, 0, 0, 0), (REG, 1, 1, 0), (REG, 2, 2, 0)])
}

/// A CONST and the given number of ORs on it.
pub fn const_and_ors(ors: usize) -> Vec<Entry> {
    let mut nets = vec![(CONST, 1, 0, 0)];
    nets.extend(vec![(OR, 0, 0, 0); ors]);
    nets
}

/// A CONST, 1,023 ORs and one AND: 2 + 8 * 1,023 + 6 = 8,192 doubled nets.
pub fn doubles_to_8192() -> Vec<u8> {
    let mut nets = const_and_ors(1023);
    nets.push((AND, 0, 0, 0));
    counted(&nets)
}

/// A CONST, 1,022 ORs, a MUX, an AND and a NOT: 2 + 8,176 + 7 + 6 + 2 = 8,193
/// doubled nets.
pub fn doubles_to_8193() -> Vec<u8> {
    let mut nets = const_and_ors(1022);
    nets.extend([(MUX, 0, 0, 0), (AND, 0, 0, 0), (NOT, 0, 0, 0)]);
    counted(&nets)
}

// The builder gives the counter's bytes that were written by hand.
#[test]
fn the_builder_gives_the_counter() {
    let built = image(
        1,
        1,
        1,
        &[
            (INPUT, 0, 0, 0),
            (REG, 4, 0, 0),
            (NOT, 1, 0, 0),
            (NOT, 0, 0, 0),
            (AND, 2, 3, 0),
            (OUT, 1, 1, 0),
        ],
    );
    assert_eq!(built, COUNTER);
}

// 258 is 2 + 256 * 1, so it is written as the bytes 2, 1. 772 is 4 + 256 * 3.
#[test]
fn the_builder_writes_the_low_byte_first() {
    let built = image(258, 0, 0, &[(NOT, 772, 0, 0)]);
    assert_eq!(built, [1, 0, 2, 1, 0, 0, 0, 0, 3, 4, 3, 0, 0, 0, 0]);
}
