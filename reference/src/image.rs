//! The layout of the image: where its bytes stand and how they are written.
//!
//! Four u16 sizes come first, then all N kind bytes, then all N entries of
//! three u16 operands. A u16 is two bytes, low byte first. The form of a pin
//! follows request L3 of document 02.

use crate::netlist::{Kind, Net, Netlist, Pin, Policy, Start};

/// The bytes of the four sizes.
pub(crate) const HEAD: usize = 8;

/// The top bit of a u16. A pin with this bit is inverted.
const TOP_BIT: usize = 32768;

/// The four sizes at the head of an image.
pub(crate) struct Sizes {
    pub nets: usize,
    pub inputs: usize,
    pub registers: usize,
    pub outputs: usize,
}

/// The kind byte and the three operands of one net, not yet checked.
pub(crate) struct Entry {
    pub kind: u8,
    pub a: usize,
    pub b: usize,
    pub c: usize,
}

/// The length of an image of n nets is 8 + 7 * n bytes.
pub fn image_length(n: usize) -> usize {
    HEAD + 7 * n
}

/// Where the kind byte of a net stands.
fn kind_offset(number: usize) -> usize {
    HEAD + number
}

/// Where the operands of a net stand in an image of n nets.
fn operand_offset(n: usize, number: usize) -> usize {
    HEAD + n + 6 * number
}

/// The u16 at an offset of an image or a state, low byte first.
pub(crate) fn read_u16(bytes: &[u8], offset: usize) -> usize {
    usize::from(bytes[offset]) + 256 * usize::from(bytes[offset + 1])
}

/// Writes a number below 65,536 at such an offset, low byte first.
pub(crate) fn write_u16(bytes: &mut [u8], offset: usize, number: usize) {
    bytes[offset] = (number % 256) as u8;
    bytes[offset + 1] = (number / 256) as u8;
}

/// Reads the four sizes. The image has at least 8 bytes.
pub(crate) fn read_sizes(image: &[u8]) -> Sizes {
    Sizes {
        nets: read_u16(image, 0),
        inputs: read_u16(image, 2),
        registers: read_u16(image, 4),
        outputs: read_u16(image, 6),
    }
}

/// Reads one net's entry. The image has 8 + 7 * n bytes.
pub(crate) fn read_entry(image: &[u8], n: usize, number: usize) -> Entry {
    let operands = operand_offset(n, number);
    Entry {
        kind: image[kind_offset(number)],
        a: read_u16(image, operands),
        b: read_u16(image, operands + 2),
        c: read_u16(image, operands + 4),
    }
}

/// The pin that an operand stands for. The top bit says whether the pin is
/// inverted, and the other bits name its net.
pub(crate) fn read_pin(operand: usize) -> Pin {
    Pin {
        net: operand % TOP_BIT,
        inverted: operand >= TOP_BIT,
    }
}

/// The operand that stands for a pin. Its net is below 32,768.
fn pin_operand(pin: Pin) -> usize {
    if pin.inverted {
        TOP_BIT + pin.net
    } else {
        pin.net
    }
}

/// Writes a netlist into a buffer of its exact length.
pub(crate) fn write_image(netlist: &Netlist, buffer: &mut [u8]) {
    let n = netlist.nets.len();
    write_u16(buffer, 0, n);
    write_u16(buffer, 2, netlist.inputs);
    write_u16(buffer, 4, netlist.registers);
    write_u16(buffer, 6, netlist.outputs);
    for (number, net) in netlist.nets.iter().enumerate() {
        let entry = entry_of(*net);
        let operands = operand_offset(n, number);
        buffer[kind_offset(number)] = entry.kind;
        write_u16(buffer, operands, entry.a);
        write_u16(buffer, operands + 2, entry.b);
        write_u16(buffer, operands + 4, entry.c);
    }
}

/// The entry of a net. Operands not listed are 0.
fn entry_of(net: Net) -> Entry {
    let kind = net.kind();
    let pin = pin_operand;
    match net {
        Net::Const(value) => entry(kind, usize::from(value), 0, 0),
        Net::Input => entry(kind, 0, 0, 0),
        Net::Reg(a, start) => entry(kind, pin(a), start_operand(start), 0),
        Net::Not(a) => entry(kind, pin(a), 0, 0),
        Net::And(a, b) => entry(kind, pin(a), pin(b), 0),
        Net::Or(a, b) => entry(kind, pin(a), pin(b), 0),
        Net::Xor(a, b) => entry(kind, pin(a), pin(b), 0),
        Net::Mux(a, b, c) => entry(kind, pin(a), pin(b), pin(c)),
        Net::Out(a, policy) => entry(kind, pin(a), policy_operand(policy), 0),
    }
}

/// The entry of a kind with its three operands.
fn entry(kind: Kind, a: usize, b: usize, c: usize) -> Entry {
    Entry {
        kind: kind.byte(),
        a,
        b,
        c,
    }
}

/// Operand b of a register.
fn start_operand(start: Start) -> usize {
    match start {
        Start::Zero => 0,
        Start::One => 1,
        Start::NoneGiven => 2,
    }
}

/// Operand b of an OUT.
fn policy_operand(policy: Policy) -> usize {
    match policy {
        Policy::Free => 0,
        Policy::Protected => 1,
    }
}
