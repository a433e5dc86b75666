//! Random numbers and netlists for the tests, the same in every run of them.

use crate::codes::CODES;
use crate::images::*;
use crate::pins::{change_pins, inverted, pins};

/// A sequence of numbers that is the same in every run of the tests.
pub struct Numbers(pub u64);

impl Numbers {
    /// A number from 0 to `count` - 1.
    pub fn below(&mut self, count: usize) -> usize {
        self.0 = self
            .0
            .wrapping_mul(6364136223846793005)
            .wrapping_add(1442695040888963407);
        (self.0 >> 33) as usize % count
    }

    /// The same, as an operand.
    pub fn operand(&mut self, count: usize) -> u16 {
        self.below(count) as u16
    }

    /// Bytes from 0 to 3.
    pub fn bytes(&mut self, length: usize) -> Vec<u8> {
        (0..length).map(|_| self.below(4) as u8).collect()
    }

    /// Codes of a static run.
    pub fn codes(&mut self, length: usize) -> Vec<u8> {
        (0..length).map(|_| CODES[self.below(6)]).collect()
    }
}

/// A good entry of this kind for net `number` of `n` nets, with no pin inverted.
/// Net 0 has no net below it, so its kind is CONST, INPUT or REG.
fn entry(numbers: &mut Numbers, kind: u8, number: usize, n: usize) -> Entry {
    let below = number.max(1);
    match kind {
        CONST => (kind, numbers.operand(2), 0, 0),
        INPUT => (kind, 0, 0, 0),
        REG => (kind, numbers.operand(n), numbers.operand(3), 0),
        NOT => (kind, numbers.operand(below), 0, 0),
        OUT => (kind, numbers.operand(below), numbers.operand(2), 0),
        MUX => (
            kind,
            numbers.operand(below),
            numbers.operand(below),
            numbers.operand(below),
        ),
        _ => (kind, numbers.operand(below), numbers.operand(below), 0),
    }
}

/// The nets of a good netlist of `n` nets, of all kinds alike.
pub fn random_nets(numbers: &mut Numbers, n: usize) -> Vec<Entry> {
    let all = [CONST, INPUT, REG, NOT, AND, OR, XOR, MUX, OUT];
    random_nets_of(numbers, &all, n)
}

/// The nets of a good netlist of `n` nets. From net 1 on the kinds are drawn
/// from the given ones. In half of the netlists no pin is inverted, and in the
/// others each pin is inverted or not.
pub fn random_nets_of(numbers: &mut Numbers, kinds: &[u8], n: usize) -> Vec<Entry> {
    let inverts = numbers.below(2) == 1;
    let mut nets = Vec::new();
    for number in 0..n {
        let kind = match number {
            0 => numbers.below(3) as u8,
            _ => kinds[numbers.below(kinds.len())],
        };
        let plain = entry(numbers, kind, number, n);
        nets.push(match inverts {
            false => plain,
            true => some_inverted(numbers, plain),
        });
    }
    nets
}

/// The entry with each of its pins inverted or not.
fn some_inverted(numbers: &mut Numbers, entry: Entry) -> Entry {
    change_pins(entry, |pin| match numbers.below(2) {
        0 => pin,
        _ => inverted(pin),
    })
}

// A pin with the top bit is 32,768 or more. Of 200 netlists of 30 nets about
// half have no such pin. Kinds 2 to 8 have 1, 1, 2, 2, 2, 3 and 1 pins, in all
// 12. In the others each of these is found both with the bit and without it.
#[test]
fn netlists_with_and_without_inverted_pins() {
    let mut numbers = Numbers(10);
    let mut without = 0;
    let mut met = std::collections::BTreeSet::new();
    for _ in 0..200 {
        let nets = random_nets(&mut numbers, 30);
        let mut found = Vec::new();
        for net in &nets {
            for (place, pin) in pins(*net).into_iter().enumerate() {
                found.push((net.0, place, pin >= 32768));
            }
        }
        if found.iter().all(|(_, _, bit)| !bit) {
            without += 1;
        } else {
            met.extend(found);
        }
    }
    assert!((50..150).contains(&without), "{without}");
    assert_eq!(met.len(), 2 * 12);
}
