//! Stand-ins that get the top bit wrong on pins of the doubled netlist.

use crate::parts::{bytes_mut, read};
use reference::GROUP_LENGTHS;
use tests::listed::{net_of, pins_of};
use tests::{Calls, LIBRARY};
use tracker::kinds::{INVERTED, OR};
use tracker::{encode, Net};

/// A net of the source, and the nets of its group.
struct Group<'a> {
    source: Net,
    nets: &'a mut [Net],
}

/// Makes the pins of a group wrong. The list has the mark net of each net of the
/// source.
type Change = fn(Group, &[usize]);

const CHANGES: [Change; 4] = [
    kept_on_marks,
    dropped_on_values,
    dropped_on_inner,
    or_inverted_twice,
];

/// Keeps the bit on the mark pins that stand for an inverted pin.
pub const KEPT_ON_MARKS: Calls = changed::<0>();

/// Drops the bit on all value pins.
pub const DROPPED_ON_VALUES: Calls = changed::<1>();

/// Drops the bit on the value pins of inner nets, and keeps it at the value net.
pub const DROPPED_ON_INNER: Calls = changed::<2>();

/// Has an OR's inner pins on NOT va and NOT vb inverted as a and b are.
pub const OR_INVERTED_TWICE: Calls = changed::<3>();

fn kept_on_marks(group: Group, mark_nets: &[usize]) {
    let pins = &group.source.operands[..pins_of(group.source.kind)];
    for pin in pins.iter().filter(|pin| **pin >= INVERTED) {
        let mark_pin = mark_nets[net_of(*pin)] as u16;
        let pins = group.nets.iter_mut().flat_map(pins_mut);
        for pin in pins.filter(|pin| **pin == mark_pin) {
            *pin += INVERTED;
        }
    }
}

fn dropped_on_values(group: Group, _: &[usize]) {
    for pin in group.nets.iter_mut().flat_map(pins_mut) {
        *pin %= INVERTED;
    }
}

fn dropped_on_inner(group: Group, _: &[usize]) {
    for pin in group.nets[1..].iter_mut().flat_map(pins_mut) {
        *pin %= INVERTED;
    }
}

/// Net 1 of the group is NOT va, and net 2 is NOT vb. Operand b of net 3 is on the
/// latter, and that of net 4 on the former.
fn or_inverted_twice(group: Group, _: &[usize]) {
    if group.source.kind == OR {
        let [a, b, _] = group.source.operands;
        group.nets[3].operands[1] |= b & INVERTED;
        group.nets[4].operands[1] |= a & INVERTED;
    }
}

/// The pins of a net.
fn pins_mut(net: &mut Net) -> &mut [u16] {
    &mut net.operands[..pins_of(net.kind)]
}

const fn changed<const INDEX: usize>() -> Calls {
    Calls {
        double: double::<INDEX>,
        ..LIBRARY
    }
}

#[rustfmt::skip]
unsafe extern "C" fn double<const INDEX: usize>(
    image: *const u8, il: usize, buffer: *mut u8, bl: usize,
) -> u64 {
    let answer = (LIBRARY.double)(image, il, buffer, bl);
    if answer != 0 {
        return answer;
    }
    let source: Vec<Net> = read(image, il).nets().collect();
    let mut nets: Vec<Net> = read(buffer, bl).nets().collect();
    let mut ends = vec![0];
    for net in &source {
        ends.push(ends[ends.len() - 1] + GROUP_LENGTHS[usize::from(net.kind)]);
    }
    let mark_nets: Vec<usize> = ends[1..].iter().map(|end| end - 1).collect();
    for (number, source) in source.into_iter().enumerate() {
        let nets = &mut nets[ends[number]..ends[number + 1]];
        CHANGES[INDEX](Group { source, nets }, &mark_nets);
    }
    bytes_mut(buffer, bl).copy_from_slice(&encode(&nets));
    answer
}
