//! The mix "real": a netlist in the order in which tools write it.

use crate::mix::PROTECTED;
use crate::pins::pins_of;
use crate::random::Random;
use tracker::kinds::{INPUT, NOT, OUT, REG};
use tracker::Net;

/// The INPUTs, REGs and OUTs in 100 nets. All others are gates.
const INPUTS: usize = 4;
const REGISTERS: usize = 12;
const OUTPUTS: usize = 4;

/// The pins in 100 that name one of the NEAR nets before their gate.
const NEAR_PINS: usize = 80;
const NEAR: usize = 32;

/// Where the REGs, the gates and the OUTs of n nets begin. Net 0 is an INPUT.
struct Order {
    registers: usize,
    gates: usize,
    outputs: usize,
}

impl Order {
    fn of(n: usize) -> Order {
        let registers = (n * INPUTS / 100).max(1);
        Order {
            registers,
            gates: registers + n * REGISTERS / 100,
            outputs: n - n * OUTPUTS / 100,
        }
    }
}

/// Net i of n.
pub fn real_net(random: &mut Random, n: usize, i: usize) -> Net {
    let order = Order::of(n);
    if i < order.registers {
        return net(INPUT, [0, 0, 0]);
    }
    if i < order.gates {
        return net(REG, [any_gate(random, &order), random.below(3), 0]);
    }
    if i < order.outputs {
        return gate(random, i);
    }
    let policy = usize::from(random.chance(PROTECTED));
    net(OUT, [any_gate(random, &order), policy, 0])
}

fn net(kind: u8, operands: [usize; 3]) -> Net {
    let operands = operands.map(|operand| operand as u16);
    Net { kind, operands }
}

/// A gate, or net 0 where there is none.
fn any_gate(random: &mut Random, order: &Order) -> usize {
    match order.outputs - order.gates {
        0 => 0,
        gates => order.gates + random.below(gates),
    }
}

/// Gate i.
fn gate(random: &mut Random, i: usize) -> Net {
    let kind = NOT + random.below(5) as u8;
    let mut pins = [0; 3];
    for place in &mut pins[..pins_of(kind)] {
        *place = pin(random, i);
    }
    net(kind, pins)
}

/// A pin of gate i, near or anywhere below it.
fn pin(random: &mut Random, i: usize) -> usize {
    match random.chance(NEAR_PINS) {
        true => i - 1 - random.below(i.min(NEAR)),
        false => random.below(i),
    }
}
