//! The refusals of static power-up and static run: request L4 of document 02.
//! They are those of power-up and run, in the same order, with 18 where 11 and 13
//! would stand. The functions of `lent` see to it that no lent byte changed.

use crate::images::*;
use crate::lent::*;
use crate::samples::{sample, Sample};
use crate::unchanged::bad_images;
use reference::{static_power_up, static_run, Verdict};

/// Three registers that hold their own bytes, two INPUTs, and an OUT: R = 3, I =
/// 2, O = 1.
fn three_and_two() -> Sample {
    sample(&[
        (REG, 0, 0, 0),
        (REG, 1, 1, 0),
        (REG, 2, 2, 0),
        (INPUT, 0, 0, 0),
        (INPUT, 0, 0, 0),
        (OUT, 4, 1, 0),
    ])
}

/// One CONST and a REG, with I = 1 although there is no INPUT.
fn wrong_count() -> Vec<u8> {
    image(1, 1, 0, &[(CONST, 0, 0, 0), (REG, 0, 0, 0)])
}

// 1 to 8 come first. Here K is also above 4,096, the state has two bytes for one
// register and no code among them, and so on.
#[test]
fn refusals_1_to_8_before_all_others() {
    for (image, number, place) in bad_images() {
        static_power_up_refuses(&image, &[77], number, place);
        static_power_up_refuses(&image, &[77, 78], number, place);
        static_run_refuses(&image, 2, (&[6], &[4, 4], 2), number, place);
        static_run_refuses(&image, 4097, (&[5, 5], &[5], 9), number, place);
    }
}

#[test]
fn refusal_8_before_9_and_10() {
    static_power_up_refuses(&wrong_count(), &[0; 9], 8, 0);
    static_run_refuses(&wrong_count(), 4097, (&[0], &[], 0), 8, 0);
    static_run_refuses(&wrong_count(), 1, (&[0; 9], &[0], 0), 8, 0);
}

// With K = 4,097 all lengths are right, and then the state has no byte for one
// register. Products of the largest numbers with I or O would overflow.
#[test]
fn refusal_9_before_10() {
    static_run_refuses(&COUNTER, 4097, (&[0], &vec![0; 4097], 4097), 9, 0);
    static_run_refuses(&COUNTER, 4097, (&[], &vec![0; 4097], 4097), 9, 0);
    static_run_refuses(&COUNTER, usize::MAX, (&[0, 0], &[], 0), 9, 0);
}

// A state of no bytes and of two bytes for one register, the first of them 5.
#[test]
fn refusal_10_before_18_of_the_state() {
    static_power_up_refuses(&COUNTER, &[], 10, 0);
    static_power_up_refuses(&COUNTER, &[5, 5], 10, 0);
    static_run_refuses(&COUNTER, 1, (&[], &[4], 1), 10, 0);
    static_run_refuses(&COUNTER, 1, (&[5, 0], &[4], 1), 10, 0);
}

// A state byte 5, and a row that is too short or too long.
#[test]
fn refusal_18_of_the_state_before_12() {
    static_run_refuses(&COUNTER, 1, (&[5], &[], 1), 18, 0);
    static_run_refuses(&COUNTER, 1, (&[5], &[4, 4], 1), 18, 0);
}

// The bad state byte stands at index 2 and the bad row byte at index 0, and then
// the other way round.
#[test]
fn refusal_18_of_the_state_before_18_of_the_rows() {
    let image = three_and_two().image;
    static_run_refuses(&image, 1, (&[4, 6, 7], &[5, 4], 1), 18, 2);
    static_run_refuses(&image, 1, (&[7, 6, 4], &[4, 5], 1), 18, 0);
}

// Two row bytes where one is due, the first of them 255.
#[test]
fn refusal_12_before_18_of_the_rows() {
    static_run_refuses(&COUNTER, 1, (&[6], &[255, 4], 1), 12, 0);
    static_run_refuses(&COUNTER, 2, (&[6], &[255], 2), 12, 0);
}

// A row byte 7, and an output buffer that is too long or too short.
#[test]
fn refusal_18_of_the_rows_before_14() {
    static_run_refuses(&COUNTER, 1, (&[6], &[7], 2), 18, 0);
    static_run_refuses(&COUNTER, 2, (&[6], &[4, 7], 1), 18, 1);
}

#[test]
fn refusal_14_is_an_output_buffer_not_k_times_o() {
    static_run_refuses(&COUNTER, 4, (&[6], &[4; 4], 3), 14, 0);
    static_run_refuses(&COUNTER, 4, (&[6], &[4; 4], 5), 14, 0);
    static_run_refuses(&two_inputs(), 1, (&[], &[4; 2], 1), 14, 0);
}

// 5 and each byte above 6, at each place of the state. The bytes before it are
// codes, and the bytes behind it are bad too.
#[test]
fn refusal_18_has_the_index_of_the_first_bad_state_byte() {
    let image = three_and_two().image;
    for bad in [5].into_iter().chain(7..=255) {
        static_run_refuses(&image, 1, (&[bad, 5, 255], &[0, 0], 1), 18, 0);
        static_run_refuses(&image, 1, (&[6, bad, 7], &[0, 0], 1), 18, 1);
        static_run_refuses(&image, 1, (&[4, 6, bad], &[0, 0], 1), 18, 2);
    }
}

// The index counts through all K * I row bytes: byte 1 of cycle 2 is 2 * 2 + 1.
#[test]
fn refusal_18_has_the_index_of_the_first_bad_row_byte() {
    let image = three_and_two().image;
    for bad in [5].into_iter().chain(7..=255) {
        let mut rows = [4, 6, 0, 3, 6, bad];
        static_run_refuses(&image, 3, (&[4, 6, 0], &rows, 3), 18, 5);
        rows[3] = bad;
        static_run_refuses(&image, 3, (&[4, 6, 0], &rows, 3), 18, 3);
        rows[0] = bad;
        static_run_refuses(&image, 3, (&[4, 6, 0], &rows, 3), 18, 0);
    }
}

// Each code stands at each place of the state and of the row. The registers hold
// their bytes, and the OUT shows the second row byte, which is marked if it is 2,
// 3 or 6.
#[test]
fn all_six_codes_are_accepted() {
    let source = three_and_two();
    for code in [0, 1, 2, 3, 4, 6] {
        let (answer, outputs, state) = source.static_run(&[code; 3], 1, &[code; 2]);
        let flow = matches!(code, 2 | 3 | 6);
        let expected = if flow {
            (0, Verdict::Flow(5))
        } else {
            (1, Verdict::Clear)
        };
        assert_eq!((answer.cycle, answer.verdict), expected);
        assert_eq!((outputs, state), (vec![code], vec![code; 3]));
    }
}

// The calls on bytes take no codes: 4 and 6 draw 11 and 13 there, as before.
#[test]
fn the_run_still_refuses_4_and_6() {
    for code in [4, 6] {
        step_refuses(&COUNTER, (&[code, 0, 0], &[0], 6), 11, 0);
        step_refuses(&COUNTER, (&[0; 3], &[code], 6), 13, 0);
        run_refuses(&COUNTER, 2, (&[code, 0, 0], &[0, 0], 2), 11, 0);
        run_refuses(&COUNTER, 2, (&[0; 3], &[0, code], 2), 13, 1);
    }
}

// With K = 0 no row or output byte is due, and every refusal is still met.
#[test]
fn a_static_run_of_no_cycles_meets_every_refusal() {
    static_run_refuses(&COUNTER[..7], 0, (&[0], &[], 0), 1, 0);
    static_run_refuses(&wrong_count(), 0, (&[0], &[], 0), 8, 0);
    static_run_refuses(&COUNTER, 0, (&[], &[], 0), 10, 0);
    static_run_refuses(&COUNTER, 0, (&[5], &[], 0), 18, 0);
    static_run_refuses(&COUNTER, 0, (&[6], &[4], 0), 12, 0);
    static_run_refuses(&COUNTER, 0, (&[6], &[], 1), 14, 0);
}

// K = 0 changes nothing and is clear with cycle 0, also from a marked state.
#[test]
fn a_static_run_of_no_cycles_changes_nothing() {
    let mut state = [6];
    let answer = static_run(&COUNTER, 0, &mut state, &[], &mut []).unwrap();
    assert_eq!((answer.cycle, answer.verdict), (0, Verdict::Clear));
    assert_eq!(state, [6]);
}

// 4,096 cycles are accepted. With rows of 4 the counter's register is 4 from the
// first clock on: AND(NOT of it, 4) is 4, both for 0 and for 4.
#[test]
fn a_static_run_of_4096_cycles_is_accepted() {
    let mut state = [0];
    let mut outputs = vec![77; 4096];
    let answer = static_run(&COUNTER, 4096, &mut state, &[4; 4096], &mut outputs).unwrap();
    assert_eq!((answer.cycle, answer.verdict), (4096, Verdict::Clear));
    assert_eq!((outputs[0], state), (0, [4]));
    assert_eq!(outputs[1..], [4; 4095]);
}

// What the state held is not looked at, also where it is no code. Starts 0, 1 and
// 2 give 0, 1 and 6.
#[test]
fn static_power_up_ignores_the_old_state() {
    for old in [0, 1, 3, 4, 5, 6, 7, 255] {
        let mut state = [old; 3];
        assert_eq!(static_power_up(&three_registers(), &mut state), Ok(()));
        assert_eq!(state, [0, 1, 6]);
    }
}
