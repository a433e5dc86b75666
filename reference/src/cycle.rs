//! The cycle rules of document 01: power-up, the nets, the verdict, the clock.
//! Power-up follows request L2 of document 02, and what a pin reads follows
//! request L3.
//!
//! The rules of the gates are handed to a cycle, and those of the starts to
//! power-up, since a static run (request L4) has the same cycle with its own.

use crate::answers::Verdict;
use crate::gates::{const_byte, is_marked, net_byte, Gates};
use crate::netlist::{Net, Netlist, Pin, Policy, Start};

/// What one cycle gives: all net bytes, the verdict, and the register bytes after
/// the clock, in net order.
pub(crate) struct Cycle {
    pub nets: Vec<u8>,
    pub verdict: Verdict,
    pub registers: Vec<u8>,
}

/// The register bytes at power-up. Each register takes what the rule gives for its
/// start, in net order.
pub(crate) fn power_up_registers(netlist: &Netlist, rule: fn(Start) -> u8) -> Vec<u8> {
    let mut registers = Vec::new();
    for net in &netlist.nets {
        if let Net::Reg(_, start) = net {
            registers.push(rule(*start));
        }
    }
    registers
}

/// The byte with which a register starts. A start value that is given has mark
/// 0. Where none is given, the register wakes unknown: value 0 and mark 1.
pub(crate) fn start_byte(start: Start) -> u8 {
    match start {
        Start::Zero => net_byte(false, false),
        Start::One => net_byte(true, false),
        Start::NoneGiven => net_byte(false, true),
    }
}

/// One cycle works out all nets, gives the verdict, and then every register
/// takes the byte that its pin reads.
pub(crate) fn work_out(netlist: &Netlist, gates: &Gates, registers: &[u8], row: &[u8]) -> Cycle {
    let nets = net_bytes(netlist, gates, registers, row);
    let verdict = verdict(netlist, &nets);
    let registers = clock(netlist, gates, &nets);
    Cycle {
        nets,
        verdict,
        registers,
    }
}

/// The byte that a pin reads. It is that of the pin's net, and if the pin is
/// inverted, it has the other value and the same mark, as NOT of the net has.
fn read(nets: &[u8], gates: &Gates, pin: Pin) -> u8 {
    let byte = nets[pin.net];
    if pin.inverted {
        (gates.not)(byte)
    } else {
        byte
    }
}

/// The bytes of all nets, worked out in net order. The pins of a gate and of an
/// OUT name nets below their own number, so those bytes are there already. A
/// REG shows its register byte, and its pin is read at the clock alone.
fn net_bytes(netlist: &Netlist, gates: &Gates, registers: &[u8], row: &[u8]) -> Vec<u8> {
    let mut nets: Vec<u8> = Vec::new();
    let mut input = 0;
    let mut register = 0;
    for net in &netlist.nets {
        let at = |pin: Pin| read(&nets, gates, pin);
        let byte = match *net {
            Net::Const(value) => const_byte(value),
            Net::Input => {
                input += 1;
                row[input - 1]
            }
            Net::Reg(_, _) => {
                register += 1;
                registers[register - 1]
            }
            Net::Not(a) => (gates.not)(at(a)),
            Net::And(a, b) => (gates.and)(at(a), at(b)),
            Net::Or(a, b) => (gates.or)(at(a), at(b)),
            Net::Xor(a, b) => (gates.xor)(at(a), at(b)),
            Net::Mux(a, b, c) => (gates.mux)(at(a), at(b), at(c)),
            Net::Out(a, _) => at(a),
        };
        nets.push(byte);
    }
    nets
}

/// The verdict is a flow at the lowest-numbered protected OUT with mark 1, or
/// else clear. Without any OUT it is clear.
fn verdict(netlist: &Netlist, nets: &[u8]) -> Verdict {
    for (number, net) in netlist.nets.iter().enumerate() {
        if let Net::Out(_, Policy::Protected) = net {
            if is_marked(nets[number]) {
                return Verdict::Flow(number);
            }
        }
    }
    Verdict::Clear
}

/// The register bytes after the clock. Every register takes the byte that its pin
/// reads, all together: only the net bytes of this cycle are read.
fn clock(netlist: &Netlist, gates: &Gates, nets: &[u8]) -> Vec<u8> {
    let mut registers = Vec::new();
    for net in &netlist.nets {
        if let Net::Reg(pin, _) = net {
            registers.push(read(nets, gates, *pin));
        }
    }
    registers
}

/// The bytes of the OUTs, in output order.
pub(crate) fn output_bytes(netlist: &Netlist, nets: &[u8]) -> Vec<u8> {
    let mut outputs = Vec::new();
    for (number, net) in netlist.nets.iter().enumerate() {
        if let Net::Out(_, _) = net {
            outputs.push(nets[number]);
        }
    }
    outputs
}
