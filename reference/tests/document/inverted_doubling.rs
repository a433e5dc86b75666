//! Doubled images with inverted pins, doubled once and twice, and their figures:
//! request L3 of document 02. Value pins keep the bit and mark pins drop it.

use crate::images::*;
use crate::inverted_groups::fourth;
use crate::pins::{all_inversions, all_inverted, inverted, without_inversions};
use crate::random::{random_nets, Numbers};
use crate::samples::sample;
use reference::{double, doubled_size};

// One net plain and inverted in one AND: 0 INPUT; 1 AND(0 inverted, 0). N 8, I
// 2, R 0, O 0, and 8 + 7 * 8 = 64 bytes. 128 as a high byte is the bit.
#[test]
#[rustfmt::skip]
fn a_doubled_and_byte_for_byte() {
    let image = counted(&[(INPUT, 0, 0, 0), (AND, inverted(0), 0, 0)]);
    let mut buffer = [77; 64];
    assert_eq!(double(&image, &mut buffer), Ok(()));
    assert_eq!(buffer, [
        8, 0, 2, 0, 0, 0, 0, 0,
        1, 1, 4, 4, 4, 4, 5, 5,
        // 0 INPUT; 1 INPUT.
        0, 0, 0, 0, 0, 0,
        0, 0, 0, 0, 0, 0,
        // 2 AND(0 inverted, 0); 3 p = AND(1, 0); 4 q = AND(1, 0 inverted);
        // 5 r = AND(1, 1); 6 s = OR(3, 4); 7 OR(6, 5).
        0, 128, 0, 0, 0, 0,
        1, 0, 0, 0, 0, 0,
        1, 0, 0, 128, 0, 0,
        1, 0, 1, 0, 0, 0,
        3, 0, 4, 0, 0, 0,
        6, 0, 5, 0, 0, 0,
    ]);
}

// The image above, doubled once more. Its groups start at 0, 2, 4, 10, 16, 22,
// 28 and 36. So v, t are 0, 1 for net 0; 2, 3 for net 1; 10, 15 for net 3; 16,
// 21 for net 4; 22, 27 for net 5; and 28, 35 for net 6. 0 and 1 INPUT become 0
// to 3 INPUT.
#[test]
#[rustfmt::skip]
fn an_and_doubled_twice() {
    let i = inverted;
    let expected = [
        (INPUT, 0, 0, 0), (INPUT, 0, 0, 0), (INPUT, 0, 0, 0), (INPUT, 0, 0, 0),
        // Net 2 AND(0 inverted, 0), from net 4.
        (AND, i(0), 0, 0), (AND, 1, 0, 0), (AND, 1, i(0), 0), (AND, 1, 1, 0),
        (OR, 5, 6, 0), (OR, 8, 7, 0),
        // Net 3 AND(1, 0), from net 10.
        (AND, 2, 0, 0), (AND, 3, 0, 0), (AND, 1, 2, 0), (AND, 3, 1, 0),
        (OR, 11, 12, 0), (OR, 14, 13, 0),
        // Net 4 AND(1, 0 inverted), from net 16.
        (AND, 2, i(0), 0), (AND, 3, i(0), 0), (AND, 1, 2, 0), (AND, 3, 1, 0),
        (OR, 17, 18, 0), (OR, 20, 19, 0),
        // Net 5 AND(1, 1), from net 22.
        (AND, 2, 2, 0), (AND, 3, 2, 0), (AND, 3, 2, 0), (AND, 3, 3, 0),
        (OR, 23, 24, 0), (OR, 26, 25, 0),
        // Net 6 OR(3, 4), from net 28.
        (OR, 10, 16, 0), (NOT, 10, 0, 0), (NOT, 16, 0, 0), (AND, 15, 30, 0),
        (AND, 21, 29, 0), (AND, 15, 21, 0), (OR, 31, 32, 0), (OR, 34, 33, 0),
        // Net 7 OR(6, 5), from net 36.
        (OR, 28, 22, 0), (NOT, 28, 0, 0), (NOT, 22, 0, 0), (AND, 35, 38, 0),
        (AND, 27, 37, 0), (AND, 35, 27, 0), (OR, 39, 40, 0), (OR, 42, 41, 0),
    ];
    let source = sample(&[(INPUT, 0, 0, 0), (AND, i(0), 0, 0)]);
    assert_eq!(source.doubled().doubled().image, counted(&expected));
}

// A register that takes its own byte inverted: doubled it takes its value
// inverted and its mark as it is. Of the four registers of the second doubling
// only the first has the bit.
#[test]
fn a_register_doubled_twice() {
    let once = sample(&[(REG, inverted(0), 2, 0)]).doubled();
    let expected = [(REG, inverted(0), 2, 0), (REG, 1, 1, 0)];
    assert_eq!(once.image, counted(&expected));
    let expected = counted(&[
        (REG, inverted(0), 2, 0),
        (REG, 1, 1, 0),
        (REG, 2, 1, 0),
        (REG, 3, 0, 0),
    ]);
    assert_eq!(once.doubled().image, expected);
}

// An inverted pin adds no net to a group. Document 01 gives the group lengths,
// and the three INPUTs have 6 nets.
#[test]
fn the_figures_of_each_kind_are_the_same_with_inverted_pins() {
    for (kind, length) in [2, 2, 2, 2, 6, 8, 2, 7, 2].into_iter().enumerate() {
        let plain = (kind as u8, 0, 0, 0);
        let size = doubled_size(&counted(&fourth(plain)));
        assert_eq!(size.unwrap().nets, 6 + length);
        for entry in all_inversions(plain) {
            assert_eq!(doubled_size(&counted(&fourth(entry))), size);
        }
    }
}

#[test]
fn the_figures_of_random_netlists_are_the_same_without_inversions() {
    let mut numbers = Numbers(13);
    for _ in 0..500 {
        let n = 1 + numbers.below(60);
        let nets = random_nets(&mut numbers, n);
        let plain = without_inversions(&nets);
        let size = doubled_size(&counted(&plain));
        assert_eq!(doubled_size(&counted(&nets)), size);
        assert_eq!(doubled_size(&counted(&all_inverted(&plain))), size);
    }
}
