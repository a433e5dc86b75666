//! A further peer, outside the comparison of those that read the image each
//! cycle: it decodes the image first into a list of gates and short lists of
//! inputs, registers and outputs.
//!
//! Each net stands at an even place with its inverse behind it, and both are
//! written at once. All lists have places, and a pin's is that of what it reads.

use crate::accepted::accepted;
use crate::call::{Call, First};
use crate::forms::table::PAIRS;
use tracker::kinds::{CONST, INPUT, OUT, REG};
use tracker::{Image, Sizes, MOST_NETS};

/// The places of all nets and their inverses.
const PLACES: usize = 2 * MOST_NETS;

/// The bytes of all nets and their inverses.
type Nets = [u8; PLACES];

/// A gate: where its codes start in the table, its pins, and its own net.
struct Gate {
    codes: u16,
    pins: [u16; 3],
    net: u16,
}

/// The decoded netlist.
#[derive(Default)]
struct Program {
    gates: Vec<Gate>,
    inputs: Vec<u16>,
    /// The net of each register, and its pin.
    registers: Vec<(u16, u16)>,
    outputs: Vec<u16>,
    protected: Vec<u16>,
}

/// The k cycles of an accepted run.
pub fn cycles(mut call: Call, z: Sizes) -> First {
    let mut nets = [0u8; PLACES];
    let program = decode(accepted(call.image), &mut nets);
    let mut first = None;
    for cycle in 0..call.k {
        fill(&program, call.row(z, cycle), call.state, &mut nets);
        work_out(&program.gates, &mut nets);
        if first.is_none() {
            first = verdict(&program, &nets).map(|net| (cycle, net));
        }
        let slot = call.slot(z, cycle).iter_mut();
        for (byte, net) in slot.zip(&program.outputs) {
            *byte = nets[usize::from(*net) % PLACES];
        }
        for (byte, (_, pin)) in call.state.iter_mut().zip(&program.registers) {
            *byte = nets[usize::from(*pin) % PLACES];
        }
    }
    first
}

/// The place of what a pin reads: twice the number of its net, and one more where
/// its top bit is set.
fn place(pin: u16) -> u16 {
    pin.rotate_left(1)
}

/// Decodes an accepted image, and sets the nets of its CONSTs.
fn decode(image: Image, nets: &mut Nets) -> Program {
    let mut program = Program::default();
    for (i, net) in image.nets().enumerate() {
        let number = place(i as u16);
        let [a, b, _] = net.operands;
        match net.kind {
            CONST => put(nets, number, a as u8),
            INPUT => program.inputs.push(number),
            REG => program.registers.push((number, place(a))),
            _ => program.gates.push(Gate {
                codes: u16::from(net.kind) * 64,
                pins: net.operands.map(place),
                net: number,
            }),
        }
        if net.kind == OUT {
            program.outputs.push(number);
        }
        if net.kind == OUT && b == 1 {
            program.protected.push(number);
        }
    }
    program
}

/// A net takes a byte.
fn put(nets: &mut Nets, net: u16, byte: u8) {
    nets[usize::from(net) % PLACES] = byte;
    nets[(usize::from(net) + 1) % PLACES] = byte ^ 1;
}

/// The bytes of the INPUTs and the REGs.
fn fill(program: &Program, row: &[u8], state: &[u8], nets: &mut Nets) {
    for (net, byte) in program.inputs.iter().zip(row) {
        put(nets, *net, *byte);
    }
    for ((net, _), byte) in program.registers.iter().zip(state) {
        put(nets, *net, *byte);
    }
}

/// The bytes of all gates and OUTs.
fn work_out(gates: &[Gate], nets: &mut Nets) {
    for gate in gates {
        let [a, b, c] = gate.pins.map(usize::from);
        // SAFETY: all nets that are named are below N, which is at most 8,192, so
        // that all places are below 16,384, and all bytes are below 4.
        unsafe {
            let read = |pin: usize| usize::from(*nets.get_unchecked(pin));
            let index = usize::from(gate.codes) + read(a) * 16 + read(b) * 4 + read(c);
            let both = nets.as_mut_ptr().add(usize::from(gate.net));
            both.cast::<[u8; 2]>().write(*PAIRS.get_unchecked(index));
        }
    }
}

/// The lowest protected OUT with mark 1.
fn verdict(program: &Program, nets: &Nets) -> Option<usize> {
    let mut protected = program.protected.iter().map(|net| usize::from(*net));
    let flow = protected.find(|net| nets[*net % PLACES] >= 2);
    flow.map(|net| net / 2)
}
