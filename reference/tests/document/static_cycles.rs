//! Static power-up and static runs of small netlists, worked out by hand: request
//! L4 of document 02. The codes of the gates are those of static_gates.rs.

use crate::images::*;
use crate::pins::inverted;
use crate::samples::{sample, Ran, Sample};
use reference::{FirstFlow, Verdict};

/// The counter of document 01.
fn counter() -> Sample {
    Sample {
        image: COUNTER.to_vec(),
        n: 6,
        inputs: 1,
        registers: 1,
        outputs: 1,
    }
}

/// What a static run gives: the answer's cycle and verdict, the outputs and the
/// last state.
fn ran((cycle, verdict): (usize, Verdict), outputs: &[u8], state: &[u8]) -> Ran {
    let answer = FirstFlow { cycle, verdict };
    (answer, outputs.to_vec(), state.to_vec())
}

// The states are in net order, each with the start of its own register. An
// inverted pin does not matter at power-up.
#[test]
fn static_power_up_sets_start_2_to_6() {
    let source = sample(&[
        (REG, 1, 2, 0),
        (INPUT, 0, 0, 0),
        (REG, inverted(1), 0, 0),
        (REG, 1, 1, 0),
        (NOT, 0, 0, 0),
        (REG, inverted(1), 2, 0),
    ]);
    assert_eq!(source.static_power_up(), [6, 0, 1, 6]);
    assert_eq!(source.power_up(), [2, 0, 1, 2, 2, 0]);
}

// The counter with any trusted program, by hand:
//
// - Row 4, state 0: NOT 0 is 1, NOT 4 is 4, AND(1, 4) is 4, OUT 0. State 4.
// - Row 4, state 4: NOT 4 is 4, NOT 4 is 4, AND(4, 4) is 4, OUT 4. State 4.
//
// All further cycles are like the second. 4 is not marked, so the run is clear.
#[test]
fn the_counter_with_unknown_trusted_rows_is_clear() {
    assert_eq!(counter().static_power_up(), [0]);
    let expected = ran((4, Verdict::Clear), &[0, 4, 4, 4], &[4]);
    assert_eq!(counter().static_run(&[0], 4, &[4; 4]), expected);
}

// The counter with any untrusted program, by hand:
//
// - Row 6, state 0: NOT 0 is 1, NOT 6 is 6, AND(1, 6) is 6, OUT 0. State 6.
// - Row 6, state 6: NOT 6 is 6, NOT 6 is 6, AND(6, 6) is 6, OUT 6. State 6.
//
// All further cycles are like the second. The first flow is in cycle 1.
#[test]
fn the_counter_with_unknown_untrusted_rows_has_a_flow() {
    let expected = ran((1, Verdict::Flow(5)), &[0, 6, 6, 6], &[6]);
    assert_eq!(counter().static_run(&[0], 4, &[6; 4]), expected);
}

// The rows of document 01 with each value unknown but the reset's. By hand:
//
// - Row 6, state 0: as above. OUT 0, state 6.
// - Row 4, state 6: NOT 6 is 6, NOT 4 is 4, AND(6, 4) is 6, OUT 6. State 6.
// - Row 1, state 6: NOT 6 is 6, NOT 1 is 0, AND(6, 0) is 0, OUT 6. State 0.
// - Row 4, state 0: as above. OUT 0, state 4.
//
// So the counter comes clean, and its value is known there.
#[test]
fn the_counter_comes_clean_by_a_known_reset() {
    let expected = ran((1, Verdict::Flow(5)), &[0, 6, 6, 0], &[4]);
    assert_eq!(counter().static_run(&[0], 4, &[6, 4, 1, 4]), expected);
}

// The rows and the start of document 01 have no unknown, so the codes are C12's
// bytes 0, 3, 2, 0, with the first flow in cycle 1 and the last state 1.
#[test]
fn the_counter_without_unknowns_is_that_of_document_01() {
    let expected = ran((1, Verdict::Flow(5)), &[0, 3, 2, 0], &[1]);
    assert_eq!(counter().static_run(&[0], 4, &COUNTER_ROWS), expected);
}

// The counter with start 2 wakes with 6. By hand:
//
// - Row 1, state 6: NOT 6 is 6, NOT 1 is 0, AND(6, 0) is 0, OUT 6: a flow in
//   cycle 0. State 0.
// - Row 4, state 0: OUT 0, state 4. Row 4, state 4: OUT 4, state 4.
#[test]
fn the_counter_without_a_reset() {
    let mut source = counter();
    // Operand b of net 1 is at byte 14 + 6 + 2.
    source.image[22] = 2;
    assert_eq!(source.static_power_up(), [6]);
    let expected = ran((0, Verdict::Flow(5)), &[6, 0, 4], &[4]);
    assert_eq!(source.static_run(&[6], 3, &[1, 4, 4]), expected);
}

// The netlist of the nine kinds from its static power-up, by hand:
//
// - Row 4, state 6: NOT 4 is 4, AND(4, 4) is 4, OR(1, 4) is 1. MUX(4, 4, 6) is
//   unknown, and marked where a and b are filled with different values: 6.
//   XOR(1, 6) is 6, OUT 6: a flow. The state becomes net 6, which is 6.
// - Row 1, state 6: NOT 1 is 0, AND(1, 0) is 0, OR(1, 0) is 1, MUX(0, 0, 6) is
//   0, XOR(1, 0) is 1, OUT 1. State 0.
// - Row 4, state 0: NOT 4 is 4, AND(4, 4) is 4, OR(1, 4) is 1, MUX(4, 4, 0) is
//   4, XOR(1, 4) is 4, OUT 4. State 4.
// - Row 6, state 4: NOT 6 is 6, AND(6, 6) is 6, OR(1, 6) is 1. MUX(6, 6, 4) is
//   6, XOR(1, 6) is 6, OUT 6. State 6.
// - Row 0, state 6: NOT 0 is 1, AND(0, 1) is 0, OR(1, 0) is 1. MUX(1, 0, 6) is
//   unknown and marked: 6. XOR(1, 6) is 6, OUT 6. State 6.
#[test]
fn the_nine_kinds() {
    let source = sample(&NINE_KINDS);
    assert_eq!(source.static_power_up(), [6]);
    let expected = ran((0, Verdict::Flow(8)), &[6, 1, 4, 6, 6], &[6]);
    assert_eq!(source.static_run(&[6], 5, &[4, 1, 4, 6, 0]), expected);
    // From the state 0, which the first two cycles leave, cycle 1 is the first
    // with a flow.
    let expected = ran((1, Verdict::Flow(8)), &[4, 6, 6], &[6]);
    assert_eq!(source.static_run(&[0], 3, &[4, 6, 0]), expected);
}

// Nets 2 and 3 are free and protected OUTs of nets 0 and 1, net 4 a protected OUT
// of net 0. A 4 is passed over as an unmarked byte is, a 6 counts as a marked one.
#[test]
fn the_flow_is_at_the_lowest_protected_out_with_a_marked_code() {
    let source = sample(&[
        (INPUT, 0, 0, 0),
        (INPUT, 0, 0, 0),
        (OUT, 0, 0, 0),
        (OUT, 1, 1, 0),
        (OUT, 0, 1, 0),
    ]);
    let verdict = |row: [u8; 2]| source.static_run(&[], 1, &row).0.verdict;
    assert_eq!(verdict([6, 6]), Verdict::Flow(3));
    assert_eq!(verdict([4, 6]), Verdict::Flow(3));
    assert_eq!(verdict([6, 4]), Verdict::Flow(4));
    assert_eq!(verdict([2, 4]), Verdict::Flow(4));
    assert_eq!(verdict([3, 4]), Verdict::Flow(4));
    assert_eq!(verdict([4, 4]), Verdict::Clear);
    assert_eq!(verdict([4, 1]), Verdict::Clear);
}

// A static run goes on after its first flow and hands its state on. The rows 6,
// 4, 6, 4 pass a register, so the outputs are the start 1 and the rows before.
#[test]
fn a_static_run_goes_on_from_the_state_it_is_lent() {
    let source = sample(&[(INPUT, 0, 0, 0), (REG, 0, 1, 0), (OUT, 1, 1, 0)]);
    let whole = ran((1, Verdict::Flow(2)), &[1, 6, 4, 6], &[4]);
    assert_eq!(source.static_run(&[1], 4, &[6, 4, 6, 4]), whole);
    let first = ran((2, Verdict::Clear), &[1, 4], &[6]);
    assert_eq!(source.static_run(&[1], 2, &[4, 6]), first);
    let second = ran((0, Verdict::Flow(2)), &[6, 4], &[4]);
    assert_eq!(source.static_run(&[6], 2, &[4, 4]), second);
}

// An inverted pin reads NOT of the code: 0, 1, 2, 3, 4, 6 become 1, 0, 3, 2, 4,
// 6, at the OUT in its cycle and at the register's clock. So the register shows
// the inverted row of the cycle before, and in cycle 0 its state 4.
#[test]
fn inverted_pins_leave_unknown_codes() {
    let source = sample(&[
        (INPUT, 0, 0, 0),
        (REG, inverted(0), 0, 0),
        (OUT, inverted(0), 0, 0),
        (OUT, 1, 0, 0),
    ]);
    let rows = [0, 1, 2, 3, 4, 6];
    let outputs = [1, 4, 0, 1, 3, 0, 2, 3, 4, 2, 6, 4];
    let expected = ran((6, Verdict::Clear), &outputs, &[6]);
    assert_eq!(source.static_run(&[4], 6, &rows), expected);
}

// One unknown net on both pins: XOR and AND with the net inverted. XOR(4, 4) is 4
// although it is 0 in every run, and AND(4, 4) likewise. Of 6 both are 6.
#[test]
fn a_net_is_filled_at_each_pin() {
    let source = sample(&[
        (INPUT, 0, 0, 0),
        (XOR, 0, 0, 0),
        (AND, 0, inverted(0), 0),
        (OUT, 1, 1, 0),
        (OUT, 2, 1, 0),
    ]);
    let expected = ran((1, Verdict::Flow(3)), &[4, 4, 6, 6], &[]);
    assert_eq!(source.static_run(&[], 2, &[4, 6]), expected);
}

// CONSTs 0 and 1 have the codes 0 and 1. Their gates on a row of 6: AND(0, 6) is
// 0, OR(1, 6) is 1, and MUX(1, 1, 6) is 1, so their protected OUTs are clear. A
// row of 4 gives the same. MUX(1, 0, 6) is 6 and MUX(1, 0, 4) is 4, with a free
// OUT.
#[test]
fn constants_are_known() {
    let source = sample(&[
        (CONST, 0, 0, 0),
        (CONST, 1, 0, 0),
        (INPUT, 0, 0, 0),
        (AND, 0, 2, 0),
        (OR, 1, 2, 0),
        (MUX, 1, 1, 2),
        (OUT, 3, 1, 0),
        (OUT, 4, 1, 0),
        (OUT, 5, 1, 0),
        (MUX, 1, 0, 2),
        (OUT, 9, 0, 0),
    ]);
    let expected = ran((1, Verdict::Clear), &[0, 1, 1, 6], &[]);
    assert_eq!(source.static_run(&[], 1, &[6]), expected);
    let expected = ran((1, Verdict::Clear), &[0, 1, 1, 4], &[]);
    assert_eq!(source.static_run(&[], 1, &[4]), expected);
}

// Without inputs and outputs the cycles are counted all the same. Two registers
// change places three times.
#[test]
fn a_static_run_without_inputs_and_outputs() {
    let source = sample(&[(REG, 1, 1, 0), (REG, 0, 2, 0)]);
    assert_eq!(source.static_power_up(), [1, 6]);
    let expected = ran((3, Verdict::Clear), &[], &[6, 1]);
    assert_eq!(source.static_run(&[1, 6], 3, &[]), expected);
}
