//! The order of refusals: two faults at once, and nets tried in turn.
//!
//! In each case the image or the call has both faults, and the lower number is
//! expected, since document 01 orders by rising number except that nets are
//! tried in turn, each for 4 to 7. By request L7 of document 02, 20 comes directly
//! after 11. The counter has one register, so its state has 3 bytes.

use crate::images::*;
use crate::lent::*;

// Seven bytes of which the first two read as N = 0.
#[test]
fn refusal_1_before_2() {
    check_refuses(&[0; 7], 1, 0);
}

// N = 0 with 9 bytes, where 8 + 7 * 0 is 8; and N = 8,193 with 8 bytes.
#[test]
fn refusal_2_before_3() {
    check_refuses(&[0; 9], 2, 0);
    check_refuses(&[1, 32, 0, 0, 0, 0, 0, 0], 2, 0);
}

// N = 1 with 16 bytes, and the kind byte is 9.
#[test]
fn refusal_3_before_4() {
    let mut bytes = counted(&[(9, 0, 0, 0)]);
    bytes.push(0);
    check_refuses(&bytes, 3, 0);
}

// A kind above 8 has no pins, so 4 and 5 do not meet in one net. Here kind 9 is
// at net 0 and a bad pin at net 1. The operands of kind 9 are not looked at.
#[test]
fn refusal_4_before_5() {
    check_refuses(&counted(&[(9, 65535, 65535, 65535), (NOT, 1, 0, 0)]), 4, 0);
}

// A REG pin not below N and a start above 2; an OUT of itself with policy 2.
#[test]
fn refusal_5_before_6() {
    check_refuses(&counted(&[(REG, 1, 3, 0)]), 5, 0);
    check_refuses(&counted(&[(CONST, 0, 0, 0), (OUT, 1, 2, 0)]), 5, 1);
}

// A NOT of itself with b = 1.
#[test]
fn refusal_5_before_7() {
    check_refuses(&counted(&[(NOT, 0, 1, 0)]), 5, 0);
}

#[test]
fn refusal_6_before_7() {
    check_refuses(&counted(&[(CONST, 2, 1, 0)]), 6, 0);
    check_refuses(&counted(&[(REG, 0, 3, 1)]), 6, 0);
    check_refuses(&counted(&[(CONST, 0, 0, 0), (OUT, 0, 2, 1)]), 6, 1);
}

// An INPUT with a = 1, and I is 0.
#[test]
fn refusal_7_before_8() {
    check_refuses(&image(0, 0, 0, &[(INPUT, 1, 0, 0)]), 7, 0);
}

/// An entry that draws this number wherever it stands as net 0 or 1.
fn fault(number: u32) -> Entry {
    match number {
        4 => (9, 0, 0, 0),
        5 => (NOT, 65535, 0, 0),
        6 => (CONST, 2, 0, 0),
        _ => (INPUT, 1, 0, 0),
    }
}

// Net 0 is tried for 4 to 7 before net 1 is tried at all. So for every two of
// these numbers the fault of net 0 is given, also a 7 at net 0 before a 4 at
// net 1.
#[test]
fn nets_are_tried_in_turn() {
    for first in 4..=7 {
        for second in 4..=7 {
            let nets = [fault(first), fault(second)];
            check_refuses(&counted(&nets), first, 0);
            let after = [(CONST, 0, 0, 0), fault(first), fault(second)];
            check_refuses(&counted(&after), first, 1);
        }
    }
}

// I is wrong from the start, but all nets are tried before the counts.
#[test]
fn a_fault_in_the_last_net_comes_before_8() {
    for number in 4..=7 {
        let nets = [(CONST, 0, 0, 0), (CONST, 0, 0, 0), fault(number)];
        check_refuses(&image(9, 9, 9, &nets), number, 2);
    }
}

/// One CONST and a REG, with I = 1 although there is no INPUT.
fn wrong_count() -> Vec<u8> {
    image(1, 1, 0, &[(CONST, 0, 0, 0), (REG, 0, 0, 0)])
}

// The state is also too long, and K is also above 4,096.
#[test]
fn refusal_8_before_9_and_10() {
    power_up_refuses(&wrong_count(), &[0; 9], 8, 0);
    step_refuses(&wrong_count(), (&[0; 9], &[0], 2), 8, 0);
    run_refuses(&wrong_count(), 4097, (&[0; 9], &[], 0), 8, 0);
}

#[test]
fn refusal_9_before_10() {
    run_refuses(&COUNTER, 4097, (&[], &[], 0), 9, 0);
    run_refuses(&COUNTER, usize::MAX, (&[0; 4], &[], 0), 9, 0);
}

// A state that is too short or too long, whose first byte is 4.
#[test]
fn refusal_10_before_11() {
    for state in [&[4][..], &[4, 0], &[4, 0, 0, 0]] {
        step_refuses(&COUNTER, (state, &[0], 6), 10, 0);
        run_refuses(&COUNTER, 1, (state, &[0], 1), 10, 0);
    }
}

// A state that is too short or too long, with the count 1 for an unmarked register.
#[test]
fn refusal_10_before_20() {
    for state in [&[0, 1][..], &[0, 1, 0, 0]] {
        step_refuses(&COUNTER, (state, &[0], 6), 10, 0);
        run_refuses(&COUNTER, 1, (state, &[0], 1), 10, 0);
    }
}

// A register byte 4, which is not marked, and 6, which would be, with other counts.
// The last of three registers is 4, and its count is 1 too high.
#[test]
fn refusal_11_before_20() {
    for state in [[4, 1, 0], [4, 0, 1], [6, 0, 0], [6, 2, 0]] {
        step_refuses(&COUNTER, (&state, &[0], 6), 11, 0);
        run_refuses(&COUNTER, 1, (&state, &[0], 1), 11, 0);
    }
    step_refuses(&three_registers(), (&[2, 3, 4, 3, 0], &[], 3), 11, 2);
    run_refuses(&three_registers(), 1, (&[2, 3, 4, 3, 0], &[], 0), 11, 2);
}

// A register byte 4, and a row that is too long.
#[test]
fn refusal_11_before_12() {
    step_refuses(&COUNTER, (&[4, 0, 0], &[0, 0], 6), 11, 0);
    run_refuses(&COUNTER, 1, (&[4, 0, 0], &[0, 0], 1), 11, 0);
}

// The count 1 for an unmarked register, and then a row that is too short or too
// long, a row byte 4, and a net or output buffer that is too long.
#[test]
fn refusal_20_before_12_13_and_14() {
    for row in [&[][..], &[0, 0], &[4]] {
        step_refuses(&COUNTER, (&[0, 1, 0], row, 6), 20, 0);
        run_refuses(&COUNTER, 1, (&[0, 1, 0], row, 1), 20, 0);
    }
    step_refuses(&COUNTER, (&[0, 1, 0], &[0], 7), 20, 0);
    run_refuses(&COUNTER, 1, (&[0, 1, 0], &[0], 2), 20, 0);
}

// The count 1 for an unmarked register, with a bad image and with 4,097 cycles.
#[test]
fn refusals_8_and_9_before_20() {
    step_refuses(&wrong_count(), (&[0, 1, 0], &[0], 2), 8, 0);
    run_refuses(&wrong_count(), 1, (&[0, 1, 0], &[0], 0), 8, 0);
    run_refuses(&COUNTER, 4097, (&[0, 1, 0], &[0], 1), 9, 0);
}

// Two row bytes where one is due, the first of them 255.
#[test]
fn refusal_12_before_13() {
    step_refuses(&COUNTER, (&[0; 3], &[255, 0], 6), 12, 0);
    run_refuses(&COUNTER, 1, (&[0; 3], &[255, 0], 1), 12, 0);
}

// A row byte 4, and a net or output buffer that is too long.
#[test]
fn refusal_13_before_14() {
    step_refuses(&COUNTER, (&[0; 3], &[4], 7), 13, 0);
    run_refuses(&COUNTER, 1, (&[0; 3], &[4], 2), 13, 0);
}

// A CONST and 1,024 ORs with I = 1, and a buffer of no bytes.
#[test]
fn refusal_8_before_15() {
    double_refuses(&image(1, 0, 0, &const_and_ors(1024)), 0, 8, 0);
}

#[test]
fn refusal_15_before_16() {
    double_refuses(&counted(&const_and_ors(1024)), 0, 15, 0);
}

// The counter's I is set to 2, and the buffer has 119 bytes.
#[test]
fn refusal_8_before_16() {
    let mut bytes = COUNTER;
    bytes[2] = 2;
    double_refuses(&bytes, 119, 8, 0);
}

// With K = 0 no row or output byte is due, and every refusal is still met.
#[test]
fn a_run_of_no_cycles_meets_every_refusal() {
    run_refuses(&COUNTER[..7], 0, (&[0; 3], &[], 0), 1, 0);
    run_refuses(&wrong_count(), 0, (&[0; 3], &[], 0), 8, 0);
    run_refuses(&COUNTER, 0, (&[], &[], 0), 10, 0);
    run_refuses(&COUNTER, 0, (&[4, 0, 0], &[], 0), 11, 0);
    run_refuses(&COUNTER, 0, (&[0, 1, 0], &[], 0), 20, 0);
    run_refuses(&COUNTER, 0, (&[0; 3], &[0], 0), 12, 0);
    run_refuses(&COUNTER, 0, (&[0; 3], &[], 1), 14, 0);
}
