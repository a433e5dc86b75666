//! The gates of a static run. Their codes are worked out by hand from the fillings:
//! every unknown pin of a gate takes both values, the value is known if all
//! fillings agree in it, and the mark is 1 if any filling marks.

use tracker::kinds::{AND, INPUT, INVERTED, MUX, NOT, OR, OUT, REG, XOR};
use tracker::{encode, static_run, Net};

/// The codes, in the order of the tables.
const CODES: [u8; 6] = [0, 1, 2, 3, 4, 6];

/// The code of a gate of this kind whose pins read these codes.
fn gate(kind: u8, [a, b, c]: [u8; 3]) -> u8 {
    let operands = match kind {
        NOT | OUT => [0, 0, 0],
        MUX => [0, 1, 2],
        _ => [0, 1, 0],
    };
    let input = Net::new(INPUT, 0, 0, 0);
    let image = encode(&[
        input,
        input,
        input,
        Net { kind, operands },
        Net::new(OUT, 3, 0, 0),
    ]);
    let mut outputs = vec![255; if kind == OUT { 2 } else { 1 }];
    let answer = static_run(&image, 1, &mut [], &[a, b, c], &mut outputs);
    assert!(answer.unwrap().verdict.is_clear());
    outputs[0]
}

/// The codes of a gate of two pins, a row for each code of pin a.
fn table(kind: u8) -> [[u8; 6]; 6] {
    CODES.map(|a| CODES.map(|b| gate(kind, [a, b, 0])))
}

// An AND with a trusted 0 is a trusted 0, and an OR with a trusted 1 a trusted 1,
// whatever the other pin reads. So with 4 they give that in one filling, and the
// other pin's code in the other. With 6 they are marked, unless the other pin reads
// that trusted value. A XOR is unknown where a pin is, and marked where one is.
#[test]
fn the_gates_of_two_pins() {
    let and = [
        [0, 0, 0, 0, 0, 0],
        [0, 1, 2, 3, 4, 6],
        [0, 2, 2, 2, 2, 2],
        [0, 3, 2, 3, 6, 6],
        [0, 4, 2, 6, 4, 6],
        [0, 6, 2, 6, 6, 6],
    ];
    assert_eq!(table(AND), and);
    let or = [
        [0, 1, 2, 3, 4, 6],
        [1, 1, 1, 1, 1, 1],
        [2, 1, 2, 3, 6, 6],
        [3, 1, 3, 3, 3, 3],
        [4, 1, 6, 3, 4, 6],
        [6, 1, 6, 3, 6, 6],
    ];
    assert_eq!(table(OR), or);
    let xor = [
        [0, 1, 2, 3, 4, 6],
        [1, 0, 3, 2, 4, 6],
        [2, 3, 2, 3, 6, 6],
        [3, 2, 3, 2, 6, 6],
        [4, 4, 6, 6, 4, 6],
        [6, 6, 6, 6, 6, 6],
    ];
    assert_eq!(table(XOR), xor);
}

#[test]
fn not_and_out_leave_unknown_codes() {
    assert_eq!(CODES.map(|a| gate(NOT, [a, 0, 0])), [1, 0, 3, 2, 4, 6]);
    assert_eq!(CODES.map(|a| gate(OUT, [a, 0, 0])), CODES);
}

// A MUX between two trusted ones is a trusted 1 for both values of c, and c changes
// nothing, trusted or untrusted. A composition of filled gates would not know that.
// Between trusted zeros it is 0, unmarked.
#[test]
fn a_mux_is_filled_as_a_whole() {
    let cases = [
        ([1, 1, 4], 1),
        ([0, 0, 4], 0),
        ([0, 1, 4], 4),
        ([3, 3, 4], 3),
        ([0, 2, 4], 2),
        ([1, 1, 6], 1),
        ([0, 0, 6], 0),
        ([0, 1, 6], 6),
        ([4, 6, 0], 4),
        ([4, 6, 1], 6),
        ([4, 0, 2], 6),
        ([0, 4, 2], 2),
        ([4, 4, 4], 4),
        ([4, 6, 4], 6),
    ];
    for (codes, expected) in cases {
        assert_eq!(gate(MUX, codes), expected, "{codes:?}");
    }
}

// Each pin of the XOR is filled by itself, also where both read one net. Without
// unknown pins it is 0 or, with one pin inverted, 1.
#[test]
fn each_pin_is_filled_by_itself() {
    let nets = [
        Net::new(INPUT, 0, 0, 0),
        Net::new(XOR, 0, 0, 0),
        Net::new(XOR, 0, INVERTED, 0),
        Net::new(OUT, 1, 0, 0),
        Net::new(OUT, 2, 0, 0),
    ];
    let (image, rows) = (encode(&nets), [0, 3, 4, 6]);
    let mut outputs = [255; 8];
    let answer = static_run(&image, 4, &mut [], &rows, &mut outputs);
    assert!(answer.unwrap().verdict.is_clear());
    assert_eq!(outputs, [0, 1, 2, 3, 4, 4, 6, 6]);
}

// An inverted pin reads 4 and 6 as they are, at an OUT and at the clock.
#[test]
fn inverted_pins_leave_unknown_codes() {
    let nets = [
        Net::new(INPUT, 0, 0, 0),
        Net::new(REG, INVERTED, 0, 0),
        Net::new(OUT, INVERTED, 0, 0),
        Net::new(OUT, INVERTED + 1, 0, 0),
    ];
    let (mut state, mut outputs) = ([6], [255; 8]);
    let answer = static_run(&encode(&nets), 4, &mut state, &[4, 6, 1, 2], &mut outputs);
    assert!(answer.unwrap().verdict.is_clear());
    assert_eq!(outputs, [4, 6, 6, 4, 0, 6, 3, 1]);
    assert_eq!(state, [3]);
}
