//! An inverted pin gives what a NOT of its net in front of the plain pin gives.
//! Both read the value inverted and the mark unchanged: the NOT by document 01,
//! the pin by request L3 of document 02.

use crate::images::*;
use crate::pins::{change_pins, inverted, pins};
use crate::random::{random_nets, Numbers};
use crate::samples::{sample, Sample};
use crate::states::with_count;
use reference::Verdict;

/// A netlist with a NOT for each inverted pin, and the number that each net of
/// the source has in it.
struct WithNots {
    netlist: Sample,
    numbers: Vec<u16>,
}

/// The NOTs that a net of the source needs directly before it. A REG needs none
/// there, since the NOT of its pin stands behind all nets.
fn nots_before(net: Entry) -> usize {
    match net.0 {
        REG => 0,
        _ => pins(net).iter().filter(|pin| **pin >= 32768).count(),
    }
}

/// The number of each net of the source once the NOTs stand before the nets.
fn new_numbers(nets: &[Entry]) -> Vec<u16> {
    let mut numbers = Vec::new();
    let mut next = 0;
    for net in nets {
        next += nots_before(*net) as u16;
        numbers.push(next);
        next += 1;
    }
    numbers
}

/// The netlist with NOTs. The NOT of a gate's or OUT's pin stands before its
/// net, and that of a REG's pin behind all nets, since it may point forward.
fn with_nots(nets: &[Entry]) -> WithNots {
    let numbers = new_numbers(nets);
    let mut placed: Vec<Entry> = Vec::new();
    let mut behind: Vec<Entry> = Vec::new();
    let end = usize::from(numbers[nets.len() - 1]) + 1;
    for net in nets {
        let is_reg = net.0 == REG;
        let plain = change_pins(*net, |pin| {
            let named = numbers[usize::from(pin % 32768)];
            if pin < 32768 {
                return named;
            }
            let (start, nots) = match is_reg {
                true => (end, &mut behind),
                false => (0, &mut placed),
            };
            nots.push((NOT, named, 0, 0));
            (start + nots.len() - 1) as u16
        });
        placed.push(plain);
    }
    placed.extend(behind);
    WithNots {
        netlist: sample(&placed),
        numbers,
    }
}

impl WithNots {
    /// The bytes of the source's nets among those of all nets.
    fn bytes(&self, nets: &[u8]) -> Vec<u8> {
        let byte = |number: &u16| nets[usize::from(*number)];
        self.numbers.iter().map(byte).collect()
    }

    /// The source's verdict with the number that its flow's net has here.
    fn verdict(&self, verdict: Verdict) -> Verdict {
        match verdict {
            Verdict::Clear => Verdict::Clear,
            Verdict::Flow(net) => Verdict::Flow(usize::from(self.numbers[net])),
        }
    }
}

/// In each of eight cycles the two netlists have the same verdict, the same
/// bytes of the source's nets, and the same state.
fn same_as_with_nots(numbers: &mut Numbers, nets: &[Entry]) {
    let source = sample(nets);
    let other = with_nots(nets);
    assert_eq!(other.netlist.power_up(), source.power_up());
    let mut state = with_count(&numbers.bytes(source.registers));
    for _ in 0..8 {
        let row = numbers.bytes(source.inputs);
        let (verdict, bytes, after) = source.step(&state, &row);
        let stepped = other.netlist.step(&state, &row);
        assert_eq!(stepped.0, other.verdict(verdict));
        assert_eq!(other.bytes(&stepped.1), bytes);
        assert_eq!(stepped.2, after);
        state = after;
    }
}

// By hand: 0 INPUT; 1 REG(3 inverted); 2 AND(0 inverted, 1 inverted); 3 OUT(2
// inverted). The AND gets two NOTs, nets 2 and 3, and is net 4; the OUT gets
// one, net 5, and is net 6; the REG's NOT of the OUT is net 7.
#[test]
fn the_netlist_with_nots() {
    let other = with_nots(&[
        (INPUT, 0, 0, 0),
        (REG, inverted(3), 2, 0),
        (AND, inverted(0), inverted(1), 0),
        (OUT, inverted(2), 1, 0),
    ]);
    let expected = [
        (INPUT, 0, 0, 0),
        (REG, 7, 2, 0),
        (NOT, 0, 0, 0),
        (NOT, 1, 0, 0),
        (AND, 2, 3, 0),
        (NOT, 4, 0, 0),
        (OUT, 5, 1, 0),
        (NOT, 6, 0, 0),
    ];
    assert_eq!(other.netlist.image, counted(&expected));
    assert_eq!(other.numbers, [0, 1, 4, 6]);
}

#[test]
fn an_inverted_pin_is_a_not_before_the_pin() {
    let mut numbers = Numbers(12);
    for _ in 0..600 {
        let n = 1 + numbers.below(30);
        let nets = random_nets(&mut numbers, n);
        same_as_with_nots(&mut numbers, &nets);
    }
}
