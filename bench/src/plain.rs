//! The plain peer: an interpreter that a Rust engineer would write first. Safe
//! code reads the image in place, matches on the kind, and works out values and
//! marks by the formulas.

use crate::accepted::accepted;
use crate::call::{Call, First};
use crate::pins::{is_inverted, net_of};
use tracker::kinds::{AND, CONST, INPUT, NOT, OR, OUT, REG, XOR};
use tracker::{Image, Sizes};

/// The k cycles of an accepted run.
pub fn cycles(mut call: Call, z: Sizes) -> First {
    let image = accepted(call.image);
    let mut nets = vec![0u8; z.nets];
    let mut first = None;
    for cycle in 0..call.k {
        work_out(image, call.row(z, cycle), call.state, &mut nets);
        if first.is_none() {
            first = verdict(image, &nets).map(|net| (cycle, net));
        }
        write_outputs(image, &nets, call.slot(z, cycle));
        clock(image, &nets, call.state);
    }
    first
}

/// The bytes of all nets.
pub fn work_out(image: Image, row: &[u8], state: &[u8], nets: &mut [u8]) {
    let mut inputs = row.iter();
    let mut registers = state.iter();
    for i in 0..nets.len() {
        let net = image.net(i);
        let [a, b, c] = net.operands;
        let pin = |operand: u16| split(read(nets, operand));
        let (value, mark) = match net.kind {
            CONST => (a == 1, false),
            INPUT => split(*inputs.next().expect("a row byte for each INPUT")),
            REG => split(*registers.next().expect("a state byte for each REG")),
            NOT => not(pin(a)),
            AND => and(pin(a), pin(b)),
            OR => or(pin(a), pin(b)),
            XOR => xor(pin(a), pin(b)),
            OUT => pin(a),
            _ => mux(pin(a), pin(b), pin(c)),
        };
        nets[i] = u8::from(value) + 2 * u8::from(mark);
    }
}

/// The byte that a pin reads.
fn read(nets: &[u8], pin: u16) -> u8 {
    nets[net_of(pin)] ^ u8::from(is_inverted(pin))
}

/// The value and the mark of a byte.
pub fn split(byte: u8) -> (bool, bool) {
    (byte & 1 == 1, byte & 2 == 2)
}

pub fn not((a, ta): (bool, bool)) -> (bool, bool) {
    (!a, ta)
}

pub fn and((a, ta): (bool, bool), (b, tb): (bool, bool)) -> (bool, bool) {
    (a & b, (ta & b) | (tb & a) | (ta & tb))
}

pub fn or((a, ta): (bool, bool), (b, tb): (bool, bool)) -> (bool, bool) {
    (a | b, (ta & !b) | (tb & !a) | (ta & tb))
}

pub fn xor((a, ta): (bool, bool), (b, tb): (bool, bool)) -> (bool, bool) {
    (a ^ b, ta | tb)
}

pub fn mux((a, ta): (bool, bool), (b, tb): (bool, bool), (c, tc): (bool, bool)) -> (bool, bool) {
    let value = if c { b } else { a };
    let chosen = if c { tb } else { ta };
    (value, if tc { (a ^ b) | ta | tb } else { chosen })
}

/// The lowest protected OUT with mark 1.
pub fn verdict(image: Image, nets: &[u8]) -> Option<usize> {
    let is_protected = |i: usize| image.operand(i, 1) == 1;
    (0..nets.len()).find(|i| image.kinds()[*i] == OUT && is_protected(*i) && nets[*i] >= 2)
}

/// The bytes of the OUTs, in net order.
pub fn write_outputs(image: Image, nets: &[u8], out: &mut [u8]) {
    let bytes = image.kinds().iter().zip(nets);
    let bytes = bytes.filter(|(kind, _)| **kind == OUT);
    for (slot, (_, byte)) in out.iter_mut().zip(bytes) {
        *slot = *byte;
    }
}

/// Every register takes the byte that its pin reads.
pub fn clock(image: Image, nets: &[u8], state: &mut [u8]) {
    let mut j = 0;
    for i in 0..nets.len() {
        if image.kinds()[i] == REG {
            state[j] = read(nets, image.operand(i, 0));
            j += 1;
        }
    }
}
