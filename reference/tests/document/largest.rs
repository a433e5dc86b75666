//! No netlist of N nets doubles to more than 8 * N - 6 nets, and for every N
//! some netlist reaches it: request L1 of document 02.
//!
//! Net 0 has no net below it, so it is a CONST, an INPUT or a REG, and its group
//! has 2 nets. Each net after it has a group of at most 8. In all they are at
//! most 2 + 8 * (N - 1) = 8 * N - 6.

use crate::images::*;
use crate::lent::*;
use crate::random::{random_nets, random_nets_of, Numbers};
use reference::{check, doubled_size, GROUP_LENGTHS};

/// The sum of the group lengths of an image of `n` nets, also where 15 stops
/// doubling. The kind bytes start at byte 8.
fn sum_of_lengths(image: &[u8], n: usize) -> usize {
    let kinds = &image[8..8 + n];
    kinds
        .iter()
        .map(|kind| GROUP_LENGTHS[usize::from(*kind)])
        .sum()
}

/// The call gives this number of nets, or draws 15 where it is above 8,192.
fn doubles_to(image: &[u8], nets: usize) {
    let size = doubled_size(image).map(|size| size.nets);
    if nets <= 8192 {
        assert_eq!(size, Ok(nets));
    } else {
        assert_eq!(size, refused(15, 0));
    }
}

// The two halves of the sum above. Of kinds 3 to 8 as net 0 every pin draws 5,
// also an inverted one: 32,768 names net 0, and 65,535 net 32,767.
#[test]
fn net_0_has_two_nets_and_each_after_it_at_most_eight() {
    for kind in [NOT, AND, OR, XOR, MUX, OUT] {
        for pin in [0, 1, 32768, 65535] {
            check_refuses(&counted(&[(kind, pin, pin, pin)]), 5, 0);
        }
    }
    for kind in [CONST, INPUT, REG] {
        assert!(check(&counted(&[(kind, 0, 0, 0)])).is_ok());
        assert_eq!(GROUP_LENGTHS[usize::from(kind)], 2);
    }
    assert_eq!(GROUP_LENGTHS.into_iter().max(), Some(8));
    assert_eq!(GROUP_LENGTHS[usize::from(OR)], 8);
}

/// All lists of `n` kinds, as nets with operands 0.
fn all_kinds(n: usize) -> Vec<Vec<Entry>> {
    let mut all = vec![Vec::new()];
    for _ in 0..n {
        let mut longer = Vec::new();
        for nets in all {
            for kind in 0..=8 {
                let mut more: Vec<Entry> = nets.clone();
                more.push((kind, 0, 0, 0));
                longer.push(more);
            }
        }
        all = longer;
    }
    all
}

// The size follows from the kinds alone, and of every list of kinds that some
// good netlist has, operands 0 make one. Three lists of each length reach the
// bound: a CONST, an INPUT or a REG, and ORs.
#[test]
fn all_kinds_of_one_to_four_nets() {
    for n in 1..=4 {
        let mut reached = Vec::new();
        for nets in all_kinds(n) {
            if let Ok(size) = doubled_size(&counted(&nets)) {
                assert!(size.nets <= 8 * n - 6);
                if size.nets == 8 * n - 6 {
                    reached.push(nets);
                }
            }
        }
        let expected = [CONST, INPUT, REG].map(|kind| {
            let mut nets = vec![(kind, 0, 0, 0)];
            nets.extend(vec![(OR, 0, 0, 0); n - 1]);
            nets
        });
        assert_eq!(reached, expected);
    }
}

// Half of the netlists have kinds with long groups alone, which come close to
// the bound. Those of up to 1,024 nets are never refused, since 8 * 1,024 - 6
// is 8,186; of the larger ones many are, and their sum is looked at.
#[test]
fn random_netlists_do_not_exceed_the_bound() {
    let mut numbers = Numbers(6);
    for (count, most) in [(1000, 30), (100, 1024), (40, 8192)] {
        for _ in 0..count {
            let n = 1 + numbers.below(most);
            let nets = match numbers.below(2) {
                0 => random_nets(&mut numbers, n),
                _ => random_nets_of(&mut numbers, &[OR, OR, OR, OR, MUX, AND], n),
            };
            let image = counted(&nets);
            let sum = sum_of_lengths(&image, n);
            assert!(sum <= 8 * n - 6);
            doubles_to(&image, sum);
        }
    }
}

// A CONST and N - 1 ORs are accepted for every N, and double to 8 * N - 6 nets.
// 8 * 1,024 - 6 is 8,186, and 8 * 1,025 - 6 is 8,194, so the call draws 15 from
// 1,025 nets on. It is made for every N around that, and for some above.
#[test]
fn a_const_and_ors_reach_the_bound_for_every_n() {
    for n in 1..=8192 {
        let image = counted(&const_and_ors(n - 1));
        assert_eq!(check(&image).unwrap().nets.len(), n);
        assert_eq!(sum_of_lengths(&image, n), 8 * n - 6);
        if n <= 1100 || n % 128 == 0 {
            doubles_to(&image, 8 * n - 6);
        }
    }
}

#[test]
fn the_call_reaches_the_bound_up_to_1024_nets() {
    let nets = |n: usize| doubled_size(&counted(&const_and_ors(n - 1))).map(|size| size.nets);
    assert_eq!(nets(1), Ok(2));
    assert_eq!(nets(1024), Ok(8186));
    assert_eq!(nets(1025), refused(15, 0));
    assert_eq!(nets(8192), refused(15, 0));
}
