//! All small netlists, and all short lists of bytes.

use crate::listed::{limit_of, pins_of, setting_of};
use tracker::kinds::{CONST, INVERTED, OUT};
use tracker::Net;

/// The pins that nets are made of.
#[derive(Clone, Copy)]
pub enum Pins {
    /// None of them is inverted.
    Plain,
    /// Each of them is inverted or not.
    Both,
}

/// The good nets with the numbers 0 to `count` - 1 in netlists of `size` nets, one
/// choice for each number, by a place among all `ways` to choose.
pub fn chosen(pins: Pins, place: u64, ways: u64, count: usize, size: usize) -> Vec<Net> {
    let choices = (0..count).map(|number| all_nets(pins, number, size));
    let choices: Vec<Vec<Net>> = choices.collect();
    let product: usize = choices.iter().map(Vec::len).product();
    assert_eq!(product as u64, ways);
    let mut place = place as usize;
    let mut nets = Vec::with_capacity(count);
    for choice in choices {
        nets.push(choice[place % choice.len()]);
        place /= choice.len();
    }
    nets
}

/// All lists of so many bytes 0 to 3.
pub fn all_bytes(length: usize) -> Vec<Vec<u8>> {
    all_of(&[0, 1, 2, 3], length)
}

/// All lists of so many codes.
pub fn all_codes(length: usize) -> Vec<Vec<u8>> {
    all_of(&[0, 1, 2, 3, 4, 6], length)
}

/// All lists of so many of these bytes.
fn all_of(bytes: &[u8], length: usize) -> Vec<Vec<u8>> {
    let mut lists = vec![Vec::new()];
    for _ in 0..length {
        let mut longer = Vec::new();
        for list in lists {
            for byte in bytes {
                longer.push([&list[..], &[*byte]].concat());
            }
        }
        lists = longer;
    }
    lists
}

/// All good nets with this number in a netlist of `size` nets.
pub fn all_nets(pins: Pins, number: usize, size: usize) -> Vec<Net> {
    let mut nets = Vec::new();
    for kind in CONST..=OUT {
        let limit = limit_of(kind, number, size) as u16;
        let [all_a, all_b, all_c] = [0, 1, 2].map(|index| all_operands(pins, kind, index, limit));
        for a in all_a {
            for b in &all_b {
                nets.extend(all_c.iter().map(|c| Net::new(kind, a, *b, *c)));
            }
        }
    }
    nets
}

/// All good operands with this index of a net of this kind, whose pins name nets
/// below a limit.
fn all_operands(pins: Pins, kind: u8, index: usize, limit: u16) -> Vec<u16> {
    match (pins, setting_of(kind)) {
        (Pins::Plain, _) if index < pins_of(kind) => (0..limit).collect(),
        (Pins::Both, _) if index < pins_of(kind) => {
            (0..limit).chain(INVERTED..INVERTED + limit).collect()
        }
        (_, Some((setting, most))) if index == setting => (0..=most).collect(),
        _ => vec![0],
    }
}
