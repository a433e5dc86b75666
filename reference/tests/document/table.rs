//! The small examples of the table of refusals, 1 to 16. For 17 document 01
//! says: none found.

use crate::images::*;
use crate::lent::*;

/// N = 1 with 16 bytes instead of 15.
fn one_byte_too_long() -> Vec<u8> {
    let mut bytes = counted(&[(CONST, 0, 0, 0)]);
    bytes.push(0);
    bytes
}

#[test]
fn refusal_1_is_7_bytes() {
    check_refuses(&[1, 0, 0, 0, 0, 0, 0], 1, 0);
    check_refuses(&[], 1, 0);
}

#[test]
fn refusal_2_is_8193_nets() {
    let nets = vec![(CONST, 0, 0, 0); 8193];
    check_refuses(&counted(&nets), 2, 0);
}

#[test]
fn refusal_2_is_no_nets() {
    check_refuses(&counted(&[]), 2, 0);
}

#[test]
fn refusal_3_is_one_net_in_16_bytes() {
    let bytes = one_byte_too_long();
    assert_eq!(bytes.len(), 16);
    check_refuses(&bytes, 3, 0);
}

#[test]
fn refusal_3_is_one_net_in_14_bytes() {
    check_refuses(&counted(&[(CONST, 0, 0, 0)])[..14], 3, 0);
}

#[test]
fn refusal_4_is_kind_9() {
    check_refuses(&counted(&[(9, 0, 0, 0)]), 4, 0);
    check_refuses(&counted(&[(CONST, 0, 0, 0), (9, 0, 0, 0)]), 4, 1);
}

#[test]
fn refusal_5_is_net_0_that_is_not_of_0() {
    check_refuses(&counted(&[(NOT, 0, 0, 0)]), 5, 0);
}

// The REG is net 1 here, so the place is 1.
#[test]
fn refusal_6_is_a_reg_with_b_3() {
    check_refuses(&counted(&[(REG, 0, 3, 0)]), 6, 0);
    check_refuses(&counted(&[(CONST, 0, 0, 0), (REG, 0, 3, 0)]), 6, 1);
}

#[test]
fn refusal_7_is_an_input_with_a_1() {
    check_refuses(&counted(&[(INPUT, 1, 0, 0)]), 7, 0);
    check_refuses(&counted(&[(CONST, 0, 0, 0), (INPUT, 1, 0, 0)]), 7, 1);
}

#[test]
fn refusal_8_is_one_const_with_i_1() {
    check_refuses(&image(1, 0, 0, &[(CONST, 0, 0, 0)]), 8, 0);
}

#[test]
fn refusal_9_is_4097_cycles() {
    run_refuses(&COUNTER, 4097, (&[0; 3], &vec![0; 4097], 4097), 9, 0);
}

#[test]
fn refusal_10_is_no_state_byte_for_one_register() {
    power_up_refuses(&COUNTER, &[], 10, 0);
    step_refuses(&COUNTER, (&[], &[0], 6), 10, 0);
    run_refuses(&COUNTER, 1, (&[], &[0], 1), 10, 0);
}

// The first byte 4 of the third state stands at index 1, and 255 after it.
#[test]
fn refusal_11_is_a_state_byte_4() {
    step_refuses(&COUNTER, (&[4, 0, 0], &[0], 6), 11, 0);
    run_refuses(&COUNTER, 1, (&[4, 0, 0], &[0], 1), 11, 0);
    step_refuses(&three_registers(), (&[3, 4, 255, 1, 0], &[], 3), 11, 1);
    run_refuses(&three_registers(), 2, (&[3, 3, 4, 2, 0], &[], 0), 11, 2);
}

// A run of 3 cycles with I = 2 takes 6 row bytes.
#[test]
fn refusal_12_is_one_row_byte_for_two_inputs() {
    step_refuses(&two_inputs(), (&[0, 0], &[0], 2), 12, 0);
    run_refuses(&two_inputs(), 1, (&[0, 0], &[0], 0), 12, 0);
    run_refuses(&two_inputs(), 3, (&[0, 0], &[0; 5], 0), 12, 0);
    run_refuses(&two_inputs(), 3, (&[0, 0], &[0; 7], 0), 12, 0);
}

// Three registers have I = 0, so every row is empty.
#[test]
fn refusal_12_is_any_row_byte_without_inputs() {
    step_refuses(&three_registers(), (&[0; 5], &[0], 3), 12, 0);
    run_refuses(&three_registers(), 2, (&[0; 5], &[0; 2], 0), 12, 0);
}

// A run counts the index through all row bytes: byte 1 of cycle 2 is 2 * 2 + 1.
#[test]
fn refusal_13_is_a_row_byte_255() {
    step_refuses(&COUNTER, (&[0; 3], &[255], 6), 13, 0);
    step_refuses(&two_inputs(), (&[0, 0], &[3, 255], 2), 13, 1);
    run_refuses(&COUNTER, 1, (&[0; 3], &[255], 1), 13, 0);
    run_refuses(&two_inputs(), 3, (&[0, 0], &[0, 1, 2, 3, 0, 255], 0), 13, 5);
    run_refuses(
        &two_inputs(),
        3,
        (&[0, 0], &[0, 1, 2, 255, 0, 255], 0),
        13,
        3,
    );
}

#[test]
fn refusal_14_is_7_bytes_for_6_nets() {
    step_refuses(&COUNTER, (&[0; 3], &[0], 7), 14, 0);
    step_refuses(&COUNTER, (&[0; 3], &[0], 5), 14, 0);
}

// A run of 4 cycles with O = 1 fills 4 output bytes. The two inputs have no
// output, so a run of theirs fills none.
#[test]
fn refusal_14_is_an_output_buffer_not_k_times_o() {
    run_refuses(&COUNTER, 4, (&[0; 3], &[0; 4], 3), 14, 0);
    run_refuses(&COUNTER, 4, (&[0; 3], &[0; 4], 5), 14, 0);
    run_refuses(&two_inputs(), 1, (&[0, 0], &[0; 2], 1), 14, 0);
}

#[test]
fn refusal_15_is_a_const_and_1024_ors() {
    // 8 + 7 * 8,194 bytes would be the image's length without the limit.
    double_refuses(&counted(&const_and_ors(1024)), 57366, 15, 0);
}

#[test]
fn refusal_16_is_119_for_120() {
    double_refuses(&COUNTER, 119, 16, 0);
    double_refuses(&COUNTER, 121, 16, 0);
    double_refuses(&COUNTER, 0, 16, 0);
}
