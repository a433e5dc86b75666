//! Wrong readings of request L4 of document 02, each as a test that the wrong
//! reading fails.

use crate::codes::{covers, CODES};
use crate::images::*;
use crate::pins::inverted;
use crate::samples::{sample, Sample};
use reference::{and_byte, and_code, Verdict};

/// Two INPUTs, a gate of this kind on them, and a protected OUT of it as net 3.
fn gate_of_two(kind: u8) -> Sample {
    let inputs = [(INPUT, 0, 0, 0); 2];
    sample(&[inputs[0], inputs[1], (kind, 0, 1, 0), (OUT, 2, 1, 0)])
}

/// The verdict and the output of a static run of one cycle without registers.
fn static_out(source: &Sample, row: &[u8]) -> (Verdict, u8) {
    let (answer, outputs, _) = source.static_run(&[], 1, row);
    (answer.verdict, outputs[0])
}

/// The verdict and the output of a run of one cycle without registers.
fn out(source: &Sample, row: &[u8]) -> (Verdict, u8) {
    let (answer, outputs, _) = source.run(&[0, 0], 1, row);
    (answer.verdict, outputs[0])
}

// With 4 filled with 0 alone, AND(2, 4) would be AND(2, 0) = 0 and clear. But the
// row 2, 1 fills it, and AND(2, 1) = 2 is a flow. By the rule the code is 2. A NOT
// of 4 would be a known 1, and the row 1 gives 0. By the rule it is 4.
#[test]
fn an_unknown_bit_is_not_a_0() {
    let and = gate_of_two(AND);
    assert_eq!(out(&and, &[2, 0]), (Verdict::Clear, 0));
    assert_eq!(out(&and, &[2, 1]), (Verdict::Flow(3), 2));
    assert_eq!(static_out(&and, &[2, 4]), (Verdict::Flow(3), 2));
    let not = sample(&[(INPUT, 0, 0, 0), (NOT, 0, 0, 0), (OUT, 1, 1, 0)]);
    assert_eq!(out(&not, &[1]), (Verdict::Clear, 0));
    assert_eq!(static_out(&not, &[4]), (Verdict::Clear, 4));
}

// With a mark only if all fillings mark, OR(3, 4) would be a known and trusted 1,
// since OR(3, 0) is 3 and OR(3, 1) is 1. But the row 3, 0 fills it and is a flow.
// By the rule the code is 3.
#[test]
fn one_filling_that_marks_is_enough() {
    let or = gate_of_two(OR);
    assert_eq!(out(&or, &[3, 0]), (Verdict::Flow(3), 3));
    assert_eq!(out(&or, &[3, 1]), (Verdict::Clear, 1));
    assert_eq!(static_out(&or, &[3, 4]), (Verdict::Flow(3), 3));
}

// With start 2 as 4, a register that holds its byte would be clear for ever. But
// power-up gives it the byte 2 (request L2), which is a flow in cycle 0. By the
// rule it starts with 6.
#[test]
fn a_register_that_wakes_unknown_is_untrusted() {
    let held = sample(&[(REG, 0, 2, 0), (OUT, 0, 1, 0)]);
    let (answer, outputs, _) = held.run(&held.power_up(), 2, &[]);
    assert_eq!((answer.cycle, answer.verdict), (0, Verdict::Flow(1)));
    assert_eq!(outputs, [2, 2]);
    assert!(!covers(4, 2));
    let (answer, outputs, state) = held.static_run(&held.static_power_up(), 2, &[]);
    assert_eq!((answer.cycle, answer.verdict), (0, Verdict::Flow(1)));
    assert_eq!((outputs, state), (vec![6, 6], vec![6]));
}

/// AND by a reading: `fillings` gives the bytes that fill a code, and `join` the
/// code of the bytes that AND gives for them.
fn and_read_as(fillings: fn(u8) -> Vec<u8>, join: fn(&[u8]) -> u8, a: u8, b: u8) -> u8 {
    let mut bytes = Vec::new();
    for a in fillings(a) {
        for b in fillings(b) {
            bytes.push(and_byte(a, b));
        }
    }
    join(&bytes)
}

/// The fillings by the rule.
fn both_ways(code: u8) -> Vec<u8> {
    match code {
        4 => vec![0, 1],
        6 => vec![2, 3],
        _ => vec![code],
    }
}

/// A wrong reading: 4 is filled with 0 alone.
fn four_as_0(code: u8) -> Vec<u8> {
    match code {
        4 => vec![0],
        _ => both_ways(code),
    }
}

/// The code whose value is known if all bytes agree, with this mark.
fn with_mark(bytes: &[u8], marked: bool) -> u8 {
    let agree = bytes.iter().all(|byte| byte % 2 == bytes[0] % 2);
    let value = if agree { bytes[0] % 2 } else { 4 };
    value + 2 * u8::from(marked)
}

/// The join by the rule: the mark is 1 if any byte is marked.
fn any_marks(bytes: &[u8]) -> u8 {
    with_mark(bytes, bytes.iter().any(|byte| *byte >= 2))
}

/// A wrong reading: the mark is 1 only if all bytes are marked.
fn all_mark(bytes: &[u8]) -> u8 {
    with_mark(bytes, bytes.iter().all(|byte| *byte >= 2))
}

/// The pins at which a reading of AND does not cover what the rule gives.
fn not_covered(fillings: fn(u8) -> Vec<u8>, join: fn(&[u8]) -> u8) -> Vec<(u8, u8)> {
    let mut pins = Vec::new();
    for a in CODES {
        for b in CODES {
            if !covers(and_read_as(fillings, join, a, b), and_code(a, b)) {
                pins.push((a, b));
            }
        }
    }
    pins
}

// By the table of AND in static_gates.rs. With 4 as 0, its row and column are 0,
// where the table has 0 for the pin 0 alone: 5 + 5 - 1 places are too narrow.
// With a mark only if all fillings mark, AND(2, 4) is 0 for 2, and AND(3, 4) and
// AND(6, 4) are 4 for 6, and so with the pins exchanged. The rule is its own.
#[test]
fn where_the_wrong_readings_of_and_are_too_narrow() {
    assert_eq!(not_covered(both_ways, any_marks), []);
    let found = not_covered(four_as_0, any_marks);
    assert!(found.iter().all(|(a, b)| *a == 4 || *b == 4));
    assert_eq!(found.len(), 9);
    let found = not_covered(both_ways, all_mark);
    assert_eq!(found, [(2, 4), (3, 4), (4, 2), (4, 3), (4, 6), (6, 4)]);
}

// Composed of static gates, MUX of two CONSTs 1 with the select 4 would be 4: OR
// of AND(1, 4) and AND(1, 4). By the rule it is 1 for both fillings. With the
// select 6 it is 1 as well and not 6, since two equal trusted values do not mark
// it (request L5). The gates themselves, as nets, give 4 and 6.
#[test]
fn a_mux_is_filled_as_a_whole() {
    let source = sample(&[
        (INPUT, 0, 0, 0),
        (CONST, 1, 0, 0),
        (MUX, 1, 1, 0),
        (AND, 1, inverted(0), 0),
        (AND, 1, 0, 0),
        (OR, 3, 4, 0),
        (OUT, 2, 0, 0),
        (OUT, 5, 0, 0),
    ]);
    let (_, outputs, _) = source.static_run(&[], 2, &[4, 6]);
    assert_eq!(outputs, [1, 4, 1, 6]);
}

// With one filling for a net, XOR of it with itself would be a known 0, and with
// one filling for a whole run so would be XOR of a register with the row, where
// both rows are 4. Each pin is filled in each cycle, so both are 4.
#[test]
fn each_pin_is_filled_in_each_cycle() {
    let source = sample(&[
        (INPUT, 0, 0, 0),
        (REG, 0, 0, 0),
        (XOR, 0, 0, 0),
        (XOR, 0, 1, 0),
        (OUT, 2, 0, 0),
        (OUT, 3, 0, 0),
    ]);
    let (_, outputs, state) = source.static_run(&[0], 2, &[4, 4]);
    assert_eq!((outputs, state), (vec![4, 4, 4, 4], vec![4]));
}

// With an unknown pin making every gate unknown, or an untrusted one marking it,
// AND(6, 0) would be 6. By the rule it is a known and trusted 0: clear.
#[test]
fn an_unknown_pin_may_be_held_back() {
    assert_eq!(static_out(&gate_of_two(AND), &[6, 0]), (Verdict::Clear, 0));
    assert_eq!(static_out(&gate_of_two(OR), &[1, 6]), (Verdict::Clear, 1));
}
