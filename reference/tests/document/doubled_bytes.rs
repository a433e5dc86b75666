//! Doubled images written out byte for byte by hand. p in the group of a MUX is
//! XOR(va, vb), by request L5 of document 02.

use crate::images::*;
use reference::{double, doubled_size};

/// The counter's groups start at 0, 2, 4, 6, 8 and 14. So v, t are 0, 1 for net
/// 0; 2, 3 for net 1; 4, 5 for net 2; 6, 7 for net 3; 8, 13 for net 4; and 14,
/// 15 for net 5.
#[rustfmt::skip]
const DOUBLED_COUNTER: [u8; 120] = [
    // N 16, I 2, R 2, O 2.
    16, 0, 2, 0, 2, 0, 2, 0,
    // INPUT, INPUT; REG, REG; NOT, OR; NOT, OR.
    1, 1, 2, 2, 3, 5, 3, 5,
    // AND, AND, AND, AND, OR, OR; OUT, OUT.
    4, 4, 4, 4, 5, 5, 8, 8,
    // Net 0 INPUT: 0 INPUT; 1 INPUT.
    0, 0, 0, 0, 0, 0,
    0, 0, 0, 0, 0, 0,
    // Net 1 REG(4, start 0): 2 REG(8, start 0); 3 REG(13, start 0).
    8, 0, 0, 0, 0, 0,
    13, 0, 0, 0, 0, 0,
    // Net 2 NOT 1: 4 NOT 2; 5 OR(3, 3).
    2, 0, 0, 0, 0, 0,
    3, 0, 3, 0, 0, 0,
    // Net 3 NOT 0: 6 NOT 0; 7 OR(1, 1).
    0, 0, 0, 0, 0, 0,
    1, 0, 1, 0, 0, 0,
    // Net 4 AND(2, 3): 8 AND(4, 6); 9 p = AND(5, 6); 10 q = AND(7, 4);
    // 11 r = AND(5, 7); 12 s = OR(9, 10); 13 OR(12, 11).
    4, 0, 6, 0, 0, 0,
    5, 0, 6, 0, 0, 0,
    7, 0, 4, 0, 0, 0,
    5, 0, 7, 0, 0, 0,
    9, 0, 10, 0, 0, 0,
    12, 0, 11, 0, 0, 0,
    // Net 5 OUT 1, protected: 14 OUT 2, free; 15 OUT 3, free.
    2, 0, 0, 0, 0, 0,
    3, 0, 0, 0, 0, 0,
];

#[test]
fn the_doubled_counter_byte_for_byte() {
    let mut buffer = [77; 120];
    assert_eq!(double(&COUNTER, &mut buffer), Ok(()));
    assert_eq!(buffer, DOUBLED_COUNTER);
}

/// The groups of `nine_kinds` have the lengths 2, 2, 2, 2, 6, 8, 7, 2, 2, in
/// all 33. So v, t are 0, 1 for net 0; 2, 3 for net 1; 4, 5 for net 2; 6, 7 for
/// net 3; 8, 13 for net 4; 14, 21 for net 5; 22, 28 for net 6; 29, 30 for net
/// 7; and 31, 32 for net 8. The length is 8 + 7 * 33 = 239.
#[rustfmt::skip]
const DOUBLED_NINE: [u8; 239] = [
    // N 33, I 2, R 2, O 2.
    33, 0, 2, 0, 2, 0, 2, 0,
    // REG, REG; INPUT, INPUT; CONST, CONST; NOT, OR.
    2, 2, 1, 1, 0, 0, 3, 5,
    // AND, AND, AND, AND, OR, OR.
    4, 4, 4, 4, 5, 5,
    // OR, NOT, NOT, AND, AND, AND, OR, OR.
    5, 3, 3, 4, 4, 4, 5, 5,
    // MUX, XOR, OR, OR, AND, MUX, OR.
    7, 6, 5, 5, 4, 7, 5,
    // XOR, OR; OUT, OUT.
    6, 5, 8, 8,
    // Net 0 REG(6, start 2): 0 REG(22, start 2); 1 REG(28, start 1).
    22, 0, 2, 0, 0, 0,
    28, 0, 1, 0, 0, 0,
    // Net 1 INPUT: 2 INPUT; 3 INPUT.
    0, 0, 0, 0, 0, 0,
    0, 0, 0, 0, 0, 0,
    // Net 2 CONST 1: 4 CONST 1; 5 CONST 0.
    1, 0, 0, 0, 0, 0,
    0, 0, 0, 0, 0, 0,
    // Net 3 NOT 1: 6 NOT 2; 7 OR(3, 3).
    2, 0, 0, 0, 0, 0,
    3, 0, 3, 0, 0, 0,
    // Net 4 AND(1, 3): 8 AND(2, 6); 9 p = AND(3, 6); 10 q = AND(7, 2);
    // 11 r = AND(3, 7); 12 s = OR(9, 10); 13 OR(12, 11).
    2, 0, 6, 0, 0, 0,
    3, 0, 6, 0, 0, 0,
    7, 0, 2, 0, 0, 0,
    3, 0, 7, 0, 0, 0,
    9, 0, 10, 0, 0, 0,
    12, 0, 11, 0, 0, 0,
    // Net 5 OR(2, 4): 14 OR(4, 8); 15 m = NOT 4; 16 n = NOT 8;
    // 17 p = AND(5, 16); 18 q = AND(13, 15); 19 r = AND(5, 13);
    // 20 s = OR(17, 18); 21 OR(20, 19).
    4, 0, 8, 0, 0, 0,
    4, 0, 0, 0, 0, 0,
    8, 0, 0, 0, 0, 0,
    5, 0, 16, 0, 0, 0,
    13, 0, 15, 0, 0, 0,
    5, 0, 13, 0, 0, 0,
    17, 0, 18, 0, 0, 0,
    20, 0, 19, 0, 0, 0,
    // Net 6 MUX(3, 4, 0): 22 MUX(6, 8, 0); 23 p = XOR(6, 8); 24 q = OR(7, 13);
    // 25 r = OR(23, 24); 26 w = AND(1, 25); 27 z = MUX(7, 13, 0);
    // 28 OR(26, 27).
    6, 0, 8, 0, 0, 0,
    6, 0, 8, 0, 0, 0,
    7, 0, 13, 0, 0, 0,
    23, 0, 24, 0, 0, 0,
    1, 0, 25, 0, 0, 0,
    7, 0, 13, 0, 0, 0,
    26, 0, 27, 0, 0, 0,
    // Net 7 XOR(5, 6): 29 XOR(14, 22); 30 OR(21, 28).
    14, 0, 22, 0, 0, 0,
    21, 0, 28, 0, 0, 0,
    // Net 8 OUT 7, protected: 31 OUT 29, free; 32 OUT 30, free.
    29, 0, 0, 0, 0, 0,
    30, 0, 0, 0, 0, 0,
];

#[test]
fn the_doubled_nine_kinds_byte_for_byte() {
    let mut buffer = [77; 239];
    assert_eq!(doubled_size(&nine_kinds()).unwrap().nets, 33);
    assert_eq!(double(&nine_kinds(), &mut buffer), Ok(()));
    assert_eq!(buffer, DOUBLED_NINE);
}

/// 0 INPUT; 1 NOT 0; 2 NOT 1; 3 MUX(0, 1, 2); 4 MUX(2, 0, 1). The select of the
/// nine kinds' MUX is a group that starts at 0; here every pin differs. So v, t
/// are 0, 1 for net 0; 2, 3 for net 1; 4, 5 for net 2; 6, 12 for net 3; and 13,
/// 19 for net 4. The length is 8 + 7 * 20 = 148.
#[rustfmt::skip]
const DOUBLED_MUXES: [u8; 148] = [
    // N 20, I 2, R 0, O 0.
    20, 0, 2, 0, 0, 0, 0, 0,
    1, 1, 3, 5, 3, 5,
    7, 6, 5, 5, 4, 7, 5,
    7, 6, 5, 5, 4, 7, 5,
    // 0 INPUT; 1 INPUT.
    0, 0, 0, 0, 0, 0,
    0, 0, 0, 0, 0, 0,
    // 2 NOT 0; 3 OR(1, 1); 4 NOT 2; 5 OR(3, 3).
    0, 0, 0, 0, 0, 0,
    1, 0, 1, 0, 0, 0,
    2, 0, 0, 0, 0, 0,
    3, 0, 3, 0, 0, 0,
    // 6 MUX(0, 2, 4); 7 p = XOR(0, 2); 8 q = OR(1, 3); 9 r = OR(7, 8);
    // 10 w = AND(5, 9); 11 z = MUX(1, 3, 4); 12 OR(10, 11).
    0, 0, 2, 0, 4, 0,
    0, 0, 2, 0, 0, 0,
    1, 0, 3, 0, 0, 0,
    7, 0, 8, 0, 0, 0,
    5, 0, 9, 0, 0, 0,
    1, 0, 3, 0, 4, 0,
    10, 0, 11, 0, 0, 0,
    // 13 MUX(4, 0, 2); 14 p = XOR(4, 0); 15 q = OR(5, 1); 16 r = OR(14, 15);
    // 17 w = AND(3, 16); 18 z = MUX(5, 1, 2); 19 OR(17, 18).
    4, 0, 0, 0, 2, 0,
    4, 0, 0, 0, 0, 0,
    5, 0, 1, 0, 0, 0,
    14, 0, 15, 0, 0, 0,
    3, 0, 16, 0, 0, 0,
    5, 0, 1, 0, 2, 0,
    17, 0, 18, 0, 0, 0,
];

#[test]
fn doubled_muxes_byte_for_byte() {
    let image = counted(&[
        (INPUT, 0, 0, 0),
        (NOT, 0, 0, 0),
        (NOT, 1, 0, 0),
        (MUX, 0, 1, 2),
        (MUX, 2, 0, 1),
    ]);
    let mut buffer = [77; 148];
    assert_eq!(double(&image, &mut buffer), Ok(()));
    assert_eq!(buffer, DOUBLED_MUXES);
}
