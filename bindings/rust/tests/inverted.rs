//! Inverted pins. What they give is worked out by hand from the rules of the
//! gates: an inverted pin reads 0 as 1, 1 as 0, 2 as 3 and 3 as 2.

use tracker::kinds::{AND, CONST, INPUT, INVERTED, MUX, NOT, OR, OUT, REG, XOR};
use tracker::{check, double, doubled_size, encode, power_up, run, step};
use tracker::{FirstFlow, Image, Net, Reason, Refusal, Verdict};

/// The counter of the specification, with inverted pins in place of its NOTs:
/// 0 INPUT; 1 REG(2, start 0); 2 AND(1 inverted, 0 inverted); 3 OUT 1, protected.
const COUNTER: [Net; 4] = [
    Net::new(INPUT, 0, 0, 0),
    Net::new(REG, 2, 0, 0),
    Net::new(AND, INVERTED + 1, INVERTED, 0),
    Net::new(OUT, 1, 1, 0),
];

// 32,769 is 128 × 256 + 1, so the high byte of an inverted pin is 128 more.
#[test]
fn the_bit_is_the_top_bit_of_the_high_byte() {
    let image = encode(&COUNTER);
    assert_eq!(image[8 + 4 + 2 * 6..][..6], [1, 128, 0, 128, 0, 0]);
    assert!(Image::of(&image).unwrap().nets().eq(COUNTER));
}

// The specification's counter gives the same outputs, with its OUT as net 5.
#[test]
fn the_counter_counts_as_it_does_with_nots() {
    let image = encode(&COUNTER);
    let (mut state, mut outputs) = ([255; 3], [255; 4]);
    assert_eq!(power_up(&image, &mut state), Ok(()));
    let answer = run(&image, 4, &mut state, &[2, 0, 1, 0], &mut outputs);
    let verdict = Verdict::Flow { net: 3 };
    assert_eq!(answer, Ok(FirstFlow { cycle: 1, verdict }));
    assert_eq!(outputs, [0, 3, 2, 0]);
    assert_eq!(state, [1, 0, 0]);
}

/// The bytes of the nets and the register after a step in which the register
/// holds a trusted 0. Net 0 is the input with this byte, and net 2 a CONST 1.
fn stepped(byte: u8) -> ([u8; 7], u8) {
    let nets = [
        Net::new(INPUT, 0, 0, 0),
        Net::new(REG, INVERTED, 1, 0),
        Net::new(CONST, 1, 0, 0),
        Net::new(NOT, INVERTED, 0, 0),
        Net::new(XOR, 0, INVERTED, 0),
        Net::new(MUX, 1, 2, INVERTED),
        Net::new(OUT, INVERTED, 0, 0),
    ];
    let (mut state, mut bytes) = ([0; 3], [255; 7]);
    let answer = step(&encode(&nets), &mut state, &[byte], &mut bytes);
    assert!(answer.unwrap().is_clear());
    (bytes, state[0])
}

// The register shows the byte that it holds, and takes the inverted input at the
// clock. NOT of the inverted input is the input. XOR of the input and the inverted
// input is 1, with the input's mark. The MUX takes net 1, a 0, if the inverted
// input is 0, and otherwise net 2, a 1; where the input is marked, the MUX is so
// too, since these differ. The OUT is the inverted input.
#[test]
fn each_pin_inverts_the_value_and_keeps_the_mark() {
    assert_eq!(stepped(0), ([0, 0, 1, 0, 1, 1, 1], 1));
    assert_eq!(stepped(1), ([1, 0, 1, 1, 1, 0, 0], 0));
    assert_eq!(stepped(2), ([2, 0, 1, 2, 3, 3, 3], 3));
    assert_eq!(stepped(3), ([3, 0, 1, 3, 3, 2, 2], 2));
}

// An AND of a marked and an unmarked pin is marked where the unmarked one reads 1.
// The second pin is inverted, so it reads 1 where net 1 is 0.
#[test]
fn a_mark_follows_the_inverted_value_of_the_other_pin() {
    let nets = [
        Net::new(INPUT, 0, 0, 0),
        Net::new(INPUT, 0, 0, 0),
        Net::new(AND, 0, INVERTED + 1, 0),
    ];
    let image = encode(&nets);
    for (row, and) in [([2, 0], 2), ([2, 1], 0), ([3, 0], 3), ([3, 1], 0)] {
        let mut bytes = [255; 3];
        let answer = step(&image, &mut [0, 0], &row, &mut bytes);
        assert!(answer.unwrap().is_clear());
        assert_eq!(bytes, [row[0], row[1], and]);
    }
}

// A start is no pin: the register wakes with it, and inverts it at each clock.
#[test]
fn a_start_is_not_inverted() {
    let image = encode(&[Net::new(REG, INVERTED, 1, 0), Net::new(OUT, 0, 1, 0)]);
    let (mut state, mut outputs) = ([255; 3], [255; 3]);
    assert_eq!(power_up(&image, &mut state), Ok(()));
    assert_eq!(state, [1, 0, 0]);
    let answer = run(&image, 3, &mut state, &[], &mut outputs);
    assert!(answer.unwrap().verdict.is_clear());
    assert_eq!((outputs, state), ([1, 0, 1], [0; 3]));
}

// The groups of the INPUT, the AND and the OUT are nets 0 and 1, 2 to 7, and 8 and
// 9. The AND's pins are both on net 0, of which the second is inverted: va and vb
// are net 0, ta and tb net 1. The group is AND(va, vb); AND(ta, vb); AND(tb, va);
// AND(ta, tb); OR(3, 4); OR(6, 5). The OUT's pin on the AND is inverted too.
#[test]
fn value_pins_keep_the_bit_and_mark_pins_drop_it() {
    let nets = [
        Net::new(INPUT, 0, 0, 0),
        Net::new(AND, 0, INVERTED, 0),
        Net::new(OUT, INVERTED + 1, 1, 0),
    ];
    let image = encode(&nets);
    let mut doubled = vec![0; doubled_size(&image).unwrap().bytes];
    assert_eq!(double(&image, &mut doubled), Ok(()));
    let expected = [
        Net::new(INPUT, 0, 0, 0),
        Net::new(INPUT, 0, 0, 0),
        Net::new(AND, 0, INVERTED, 0),
        Net::new(AND, 1, INVERTED, 0),
        Net::new(AND, 1, 0, 0),
        Net::new(AND, 1, 1, 0),
        Net::new(OR, 3, 4, 0),
        Net::new(OR, 6, 5, 0),
        Net::new(OUT, INVERTED + 2, 0, 0),
        Net::new(OUT, 7, 0, 0),
    ];
    assert!(Image::of(&doubled).unwrap().nets().eq(expected));
}

/// The answer to a check of a CONST and this net.
fn checked(net: Net) -> Result<(), Refusal> {
    check(&encode(&[Net::new(CONST, 0, 0, 0), net]))
}

// Net 1 of two: a gate's pin may name net 0, and a REG's nets 0 and 1.
#[test]
fn the_net_of_a_pin_is_looked_at_without_the_bit() {
    let refused = |reason| Err(Refusal { reason, place: 1 });
    assert_eq!(checked(Net::new(NOT, INVERTED, 0, 0)), Ok(()));
    assert_eq!(checked(Net::new(REG, INVERTED + 1, 0, 0)), Ok(()));
    let bad = [
        Net::new(NOT, INVERTED + 1, 0, 0),
        Net::new(REG, INVERTED + 2, 0, 0),
    ];
    assert_eq!(bad.map(checked), [refused(Reason::Pin); 2]);
    let bad = [
        Net::new(CONST, INVERTED, 0, 0),
        Net::new(REG, 0, INVERTED, 0),
        Net::new(OUT, 0, INVERTED, 0),
    ];
    assert_eq!(bad.map(checked), [refused(Reason::Value); 3]);
    let bad = [
        Net::new(INPUT, INVERTED, 0, 0),
        Net::new(NOT, 0, INVERTED, 0),
        Net::new(AND, 0, 0, INVERTED),
    ];
    assert_eq!(bad.map(checked), [refused(Reason::UnlistedOperand); 3]);
}
