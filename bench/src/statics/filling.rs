//! Peer "filling": the plain reading of a static run. Safe code reads the image in
//! place, matches on the kind, and at each gate fills every unknown pin both ways
//! and works out each filling by the formulas.

use std::ops::Range;

use super::codes::{inverse, is_marked, with};
use crate::accepted::accepted;
use crate::call::{Call, First};
use crate::pins::{is_inverted, net_of, pins};
use crate::plain::{and, mux, not, or, split, write_outputs, xor};
use tracker::kinds::{AND, CONST, INPUT, NOT, OR, OUT, REG, XOR};
use tracker::{Image, Net, Sizes};

/// The k cycles of an accepted static run.
pub fn cycles(mut call: Call, z: Sizes) -> First {
    let image = accepted(call.image);
    let mut nets = vec![0u8; z.nets];
    let mut first = None;
    for cycle in 0..call.k {
        work_out(image, call.row(z, cycle), call.state, &mut nets);
        if first.is_none() {
            first = verdict(image, &nets).map(|net| (cycle, net));
        }
        write_outputs(image, &nets, call.slot(z, cycle));
        clock(image, &nets, call.state);
    }
    first
}

/// The codes of all nets.
fn work_out(image: Image, row: &[u8], state: &[u8], nets: &mut [u8]) {
    let mut inputs = row.iter();
    let mut registers = state.iter();
    for i in 0..nets.len() {
        let net = image.net(i);
        nets[i] = match net.kind {
            CONST => net.operands[0] as u8,
            INPUT => *inputs.next().expect("a row code for each INPUT"),
            REG => *registers.next().expect("a state code for each REG"),
            OUT => read(nets, net.operands[0]),
            _ => gate(&net, nets),
        };
    }
}

/// The code that a pin reads.
fn read(nets: &[u8], pin: u16) -> u8 {
    let code = nets[net_of(pin)];
    match is_inverted(pin) {
        true => inverse(code),
        false => code,
    }
}

/// The code of a gate: that of all its fillings together.
fn gate(net: &Net, nets: &[u8]) -> u8 {
    let mut read_pins = [0; 3];
    for (code, pin) in read_pins.iter_mut().zip(pins(net)) {
        *code = read(nets, *pin);
    }
    let [a, b, c] = read_pins.map(fillings);
    let mut code = None;
    for a in a {
        for b in b.clone() {
            for c in c.clone() {
                code = Some(with(code, byte(net.kind, [a, b, c])));
            }
        }
    }
    code.expect("a filling")
}

/// The bytes that a code stands for.
fn fillings(code: u8) -> Range<u8> {
    match code {
        0..=3 => code..code + 1,
        _ => code - 4..code - 2,
    }
}

/// The byte of a gate by the bytes of its pins.
fn byte(kind: u8, pins: [u8; 3]) -> u8 {
    let [a, b, c] = pins.map(split);
    let (value, mark) = match kind {
        NOT => not(a),
        AND => and(a, b),
        OR => or(a, b),
        XOR => xor(a, b),
        _ => mux(a, b, c),
    };
    u8::from(value) + 2 * u8::from(mark)
}

/// The lowest protected OUT with mark 1.
fn verdict(image: Image, nets: &[u8]) -> Option<usize> {
    let is_protected = |i: usize| image.operand(i, 1) == 1;
    (0..nets.len()).find(|i| image.kinds()[*i] == OUT && is_protected(*i) && is_marked(nets[*i]))
}

/// Every register takes the code that its pin reads.
fn clock(image: Image, nets: &[u8], state: &mut [u8]) {
    let registers = (0..nets.len()).filter(|i| image.kinds()[*i] == REG);
    for (code, i) in state.iter_mut().zip(registers) {
        *code = read(nets, image.operand(i, 0));
    }
}
