//! Checking an image: refusals 1 to 8.
//!
//! The order is 1, 2, 3, then net by net 4, 5, 6, 7, then 8. So a 7 at net 0
//! comes before a 4 at net 1. By request L3 of document 02 a pin may be inverted,
//! and 5 looks at its net number alone.

use crate::answers::Refusal;
use crate::image::{image_length, read_entry, read_pin, read_sizes, Entry, Sizes, HEAD};
use crate::netlist::{Kind, Net, Netlist, Policy, Start};

/// N is 1 to 8,192.
pub const MOST_NETS: usize = 8192;

/// Checks an image and decodes its netlist.
pub fn check(image: &[u8]) -> Result<Netlist, Refusal> {
    let sizes = check_sizes(image)?;
    let mut nets = Vec::new();
    for number in 0..sizes.nets {
        let entry = read_entry(image, sizes.nets, number);
        nets.push(check_net(&entry, number, sizes.nets)?);
    }
    check_counts(&sizes, &nets)?;
    Ok(Netlist {
        inputs: sizes.inputs,
        registers: sizes.registers,
        outputs: sizes.outputs,
        nets,
    })
}

/// Refusals 1, 2 and 3: the image's length and N.
fn check_sizes(image: &[u8]) -> Result<Sizes, Refusal> {
    if image.len() < HEAD {
        return Err(Refusal::plain(1));
    }
    let sizes = read_sizes(image);
    if sizes.nets == 0 || sizes.nets > MOST_NETS {
        return Err(Refusal::plain(2));
    }
    if image.len() != image_length(sizes.nets) {
        return Err(Refusal::plain(3));
    }
    Ok(sizes)
}

/// Refusals 4 to 7 for one net, in this order. A REG with a bad pin and a bad
/// start therefore draws 5. The place is the net.
fn check_net(entry: &Entry, number: usize, n: usize) -> Result<Net, Refusal> {
    let kind = match Kind::from_byte(entry.kind) {
        Some(kind) => kind,
        None => return Err(Refusal::at(4, number)),
    };
    if !pins_are_good(kind, entry, number, n) {
        return Err(Refusal::at(5, number));
    }
    if !settings_are_good(kind, entry) {
        return Err(Refusal::at(6, number));
    }
    if !unlisted_are_zero(kind, entry) {
        return Err(Refusal::at(7, number));
    }
    Ok(decode(kind, entry))
}

/// Pins of kinds 3 to 8 name a net below their own number. A REG pin names any
/// net below N, so it may point to itself or forward. Whether a pin is inverted
/// does not matter.
fn pins_are_good(kind: Kind, entry: &Entry, number: usize, n: usize) -> bool {
    let a = read_pin(entry.a).net;
    let b = read_pin(entry.b).net;
    let c = read_pin(entry.c).net;
    match kind {
        Kind::Const => true,
        Kind::Input => true,
        Kind::Reg => a < n,
        Kind::Not => a < number,
        Kind::And => a < number && b < number,
        Kind::Or => a < number && b < number,
        Kind::Xor => a < number && b < number,
        Kind::Mux => a < number && b < number && c < number,
        Kind::Out => a < number,
    }
}

/// A CONST is at most 1, a start at most 2, a policy at most 1. None of these
/// operands is a pin, so the top bit makes each of them too large.
fn settings_are_good(kind: Kind, entry: &Entry) -> bool {
    match kind {
        Kind::Const => entry.a <= 1,
        Kind::Input => true,
        Kind::Reg => entry.b <= 2,
        Kind::Not => true,
        Kind::And => true,
        Kind::Or => true,
        Kind::Xor => true,
        Kind::Mux => true,
        Kind::Out => entry.b <= 1,
    }
}

/// Operands not listed for a kind are 0, their top bit too.
fn unlisted_are_zero(kind: Kind, entry: &Entry) -> bool {
    match kind {
        Kind::Const => entry.b == 0 && entry.c == 0,
        Kind::Input => entry.a == 0 && entry.b == 0 && entry.c == 0,
        Kind::Reg => entry.c == 0,
        Kind::Not => entry.b == 0 && entry.c == 0,
        Kind::And => entry.c == 0,
        Kind::Or => entry.c == 0,
        Kind::Xor => entry.c == 0,
        Kind::Mux => true,
        Kind::Out => entry.c == 0,
    }
}

/// The net of an entry that drew none of 4 to 7.
fn decode(kind: Kind, entry: &Entry) -> Net {
    let a = read_pin(entry.a);
    let b = read_pin(entry.b);
    let c = read_pin(entry.c);
    match kind {
        Kind::Const => Net::Const(entry.a == 1),
        Kind::Input => Net::Input,
        Kind::Reg => Net::Reg(a, decode_start(entry.b)),
        Kind::Not => Net::Not(a),
        Kind::And => Net::And(a, b),
        Kind::Or => Net::Or(a, b),
        Kind::Xor => Net::Xor(a, b),
        Kind::Mux => Net::Mux(a, b, c),
        Kind::Out => Net::Out(a, decode_policy(entry.b)),
    }
}

/// The start of a register whose operand b is at most 2.
fn decode_start(b: usize) -> Start {
    match b {
        0 => Start::Zero,
        1 => Start::One,
        _ => Start::NoneGiven,
    }
}

/// The policy of an OUT whose operand b is at most 1.
fn decode_policy(b: usize) -> Policy {
    match b {
        0 => Policy::Free,
        _ => Policy::Protected,
    }
}

/// Refusal 8: I, R and O equal the numbers of nets of kinds 1, 2 and 8. It
/// comes after every net has been tried, and its place is 0.
fn check_counts(sizes: &Sizes, nets: &[Net]) -> Result<(), Refusal> {
    let inputs_agree = sizes.inputs == count(nets, Kind::Input);
    let registers_agree = sizes.registers == count(nets, Kind::Reg);
    let outputs_agree = sizes.outputs == count(nets, Kind::Out);
    if !inputs_agree || !registers_agree || !outputs_agree {
        return Err(Refusal::plain(8));
    }
    Ok(())
}

/// The number of nets of one kind.
fn count(nets: &[Net], kind: Kind) -> usize {
    let mut found = 0;
    for net in nets {
        if net.kind() == kind {
            found += 1;
        }
    }
    found
}
