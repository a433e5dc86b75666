//! The doubled netlist of document 01, with the mark registers of request L2, the
//! inverted pins of request L3 and the MUX of request L5 of document 02.
//!
//! Each net becomes a group, groups in net order. The first net of a group is
//! the value net v, the last the mark net t. A pin on the value net is inverted
//! if the source's pin is. A pin on the mark net or on an inner net of a group
//! never is.

use crate::answers::Refusal;
use crate::check::check;
use crate::image::write_image;
use crate::netlist::{Net, Netlist, Pin, Policy, Start};
use crate::size::{group_length, size_within_limit};

/// The numbers of the value net and the mark net of a group.
struct Ends {
    value: usize,
    mark: usize,
}

/// The pins that stand for one pin of the source: v on the value net and t on
/// the mark net of the group that it names.
#[derive(Clone, Copy)]
struct Pair {
    v: Pin,
    t: Pin,
}

/// Writes the doubled netlist's image. It meets 1 to 8 and 15 to 17.
pub fn double(image: &[u8], buffer: &mut [u8]) -> Result<(), Refusal> {
    let netlist = check(image)?;
    let size = size_within_limit(&netlist.nets)?;
    if buffer.len() != size.bytes {
        return Err(Refusal::plain(16));
    }
    write_image(&doubled(&netlist), buffer);
    recheck(buffer)
}

/// Refusal 17: the finished doubled image draws one of 1 to 8. The buffer is
/// then set to 0, and the place is 0.
fn recheck(buffer: &mut [u8]) -> Result<(), Refusal> {
    if check(buffer).is_err() {
        buffer.fill(0);
        return Err(Refusal::plain(17));
    }
    Ok(())
}

/// The value net and the mark net of every group, in net order. All of them are
/// worked out before the first group is built, since a REG pin may point
/// forward.
fn all_ends(netlist: &Netlist) -> Vec<Ends> {
    let mut ends = Vec::new();
    let mut first = 0;
    for net in &netlist.nets {
        let length = group_length(net.kind());
        ends.push(Ends {
            value: first,
            mark: first + length - 1,
        });
        first += length;
    }
    ends
}

/// The two pins for a pin of the source. The value pin is inverted if the
/// source's pin is, and the mark pin is not.
fn pair(pin: Pin, ends: &[Ends]) -> Pair {
    let named = &ends[pin.net];
    Pair {
        v: Pin {
            net: named.value,
            inverted: pin.inverted,
        },
        t: Pin::plain(named.mark),
    }
}

/// The doubled netlist. Inputs, registers and outputs are each two for one.
fn doubled(netlist: &Netlist) -> Netlist {
    let ends = all_ends(netlist);
    let mut nets = Vec::new();
    for net in &netlist.nets {
        let first = nets.len();
        nets.extend(group(*net, first, &ends));
    }
    Netlist {
        inputs: 2 * netlist.inputs,
        registers: 2 * netlist.registers,
        outputs: 2 * netlist.outputs,
        nets,
    }
}

/// The group of one net, whose first net has the number `first`.
fn group(net: Net, first: usize, ends: &[Ends]) -> Vec<Net> {
    let pair = |pin: Pin| pair(pin, ends);
    match net {
        Net::Const(value) => vec![Net::Const(value), Net::Const(false)],
        Net::Input => vec![Net::Input, Net::Input],
        Net::Reg(a, start) => reg_group(pair(a), start),
        Net::Not(a) => not_group(pair(a)),
        Net::And(a, b) => and_group(pair(a), pair(b), first),
        Net::Or(a, b) => or_group(pair(a), pair(b), first),
        Net::Xor(a, b) => xor_group(pair(a), pair(b)),
        Net::Mux(a, b, c) => mux_group(pair(a), pair(b), pair(c), first),
        Net::Out(a, _) => out_group(pair(a)),
    }
}

/// REG on va with start b; REG on ta with start 1 if b is 2, otherwise 0.
///
/// The value register keeps a start of 2, so it wakes marked in the doubled
/// netlist. Only plain values of the doubled run are compared, and its plain
/// value is 0, that of the source's register.
fn reg_group(a: Pair, start: Start) -> Vec<Net> {
    vec![Net::Reg(a.v, start), Net::Reg(a.t, mark_start(start))]
}

/// The start of the mark register: the mark with which the source's register
/// powers up.
fn mark_start(start: Start) -> Start {
    match start {
        Start::Zero => Start::Zero,
        Start::One => Start::Zero,
        Start::NoneGiven => Start::One,
    }
}

/// NOT va; OR(ta, ta).
fn not_group(a: Pair) -> Vec<Net> {
    vec![Net::Not(a.v), Net::Or(a.t, a.t)]
}

/// XOR(va, vb); OR(ta, tb).
fn xor_group(a: Pair, b: Pair) -> Vec<Net> {
    vec![Net::Xor(a.v, b.v), Net::Or(a.t, b.t)]
}

/// AND(va, vb); p = AND(ta, vb); q = AND(tb, va); r = AND(ta, tb);
/// s = OR(p, q); OR(s, r).
fn and_group(a: Pair, b: Pair, first: usize) -> Vec<Net> {
    let p = Pin::plain(first + 1);
    let q = Pin::plain(first + 2);
    let r = Pin::plain(first + 3);
    let s = Pin::plain(first + 4);
    vec![
        Net::And(a.v, b.v),
        Net::And(a.t, b.v),
        Net::And(b.t, a.v),
        Net::And(a.t, b.t),
        Net::Or(p, q),
        Net::Or(s, r),
    ]
}

/// OR(va, vb); m = NOT va; n = NOT vb; p = AND(ta, n); q = AND(tb, m);
/// r = AND(ta, tb); s = OR(p, q); OR(s, r).
fn or_group(a: Pair, b: Pair, first: usize) -> Vec<Net> {
    let m = Pin::plain(first + 1);
    let n = Pin::plain(first + 2);
    let p = Pin::plain(first + 3);
    let q = Pin::plain(first + 4);
    let r = Pin::plain(first + 5);
    let s = Pin::plain(first + 6);
    vec![
        Net::Or(a.v, b.v),
        Net::Not(a.v),
        Net::Not(b.v),
        Net::And(a.t, n),
        Net::And(b.t, m),
        Net::And(a.t, b.t),
        Net::Or(p, q),
        Net::Or(s, r),
    ]
}

/// MUX(va, vb, vc); p = XOR(va, vb); q = OR(ta, tb); r = OR(p, q);
/// w = AND(tc, r); z = MUX(ta, tb, vc); OR(w, z). The XOR is that of request L5.
fn mux_group(a: Pair, b: Pair, c: Pair, first: usize) -> Vec<Net> {
    let p = Pin::plain(first + 1);
    let q = Pin::plain(first + 2);
    let r = Pin::plain(first + 3);
    let w = Pin::plain(first + 4);
    let z = Pin::plain(first + 5);
    vec![
        Net::Mux(a.v, b.v, c.v),
        Net::Xor(a.v, b.v),
        Net::Or(a.t, b.t),
        Net::Or(p, q),
        Net::And(c.t, r),
        Net::Mux(a.t, b.t, c.v),
        Net::Or(w, z),
    ]
}

/// OUT va, free; OUT ta, free.
fn out_group(a: Pair) -> Vec<Net> {
    vec![Net::Out(a.v, Policy::Free), Net::Out(a.t, Policy::Free)]
}

#[cfg(test)]
mod tests {
    use super::*;

    // No image is known for which doubling draws 17, so the recheck is tried on
    // bytes that doubling never writes. N is 1 and the kind byte is 9, which
    // draws 4, so the recheck gives 17 with place 0 and sets all 15 bytes to 0.
    #[test]
    fn a_bad_finished_image_draws_17_and_is_set_to_0() {
        let mut buffer = [1, 0, 0, 0, 0, 0, 0, 0, 9, 1, 2, 3, 4, 5, 6];
        assert_eq!(recheck(&mut buffer), Err(Refusal::plain(17)));
        assert_eq!(buffer, [0; 15]);
    }

    // One CONST 1 is a good image, so the recheck leaves its bytes.
    #[test]
    fn a_good_finished_image_keeps_its_bytes() {
        let good = [1, 0, 0, 0, 0, 0, 0, 0, 0, 1, 0, 0, 0, 0, 0];
        let mut buffer = good;
        assert_eq!(recheck(&mut buffer), Ok(()));
        assert_eq!(buffer, good);
    }
}
