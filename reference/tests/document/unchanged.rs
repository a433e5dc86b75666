//! Refused calls change no lent byte: every number that a call can draw.
//!
//! The helpers of `lent` compare each lent buffer with what it held before.

use crate::images::*;
use crate::lent::*;

/// An image for each of 1 to 8 with the place of its refusal. All are changed
/// forms of the counter, whose operands start at byte 14.
pub fn bad_images() -> Vec<(Vec<u8>, u32, usize)> {
    let changed = |index: usize, byte: u8| {
        let mut bytes = COUNTER.to_vec();
        bytes[index] = byte;
        bytes
    };
    vec![
        (COUNTER[..7].to_vec(), 1, 0),
        (changed(0, 0), 2, 0),
        (COUNTER[..49].to_vec(), 3, 0),
        // The kind byte of net 3 is byte 8 + 3.
        (changed(11, 9), 4, 3),
        // Operand a of net 2 is at byte 14 + 6 * 2. NOT 2 is not below net 2.
        (changed(26, 2), 5, 2),
        // Operand b of net 1 is at byte 14 + 6 + 2. A start of 3 is too large.
        (changed(22, 3), 6, 1),
        // Operand c of net 4 is at byte 14 + 6 * 4 + 4. An AND does not list c.
        (changed(42, 1), 7, 4),
        // R is at byte 4.
        (changed(4, 2), 8, 0),
    ]
}

#[test]
fn a_refused_power_up_changes_nothing() {
    for (image, number, place) in bad_images() {
        check_refuses(&image, number, place);
        power_up_refuses(&image, &[77; 3], number, place);
    }
    power_up_refuses(&COUNTER, &[], 10, 0);
    power_up_refuses(&COUNTER, &[77, 78], 10, 0);
    power_up_refuses(&COUNTER, &[77, 78, 79, 80], 10, 0);
}

#[test]
fn a_refused_step_changes_nothing() {
    for (image, number, place) in bad_images() {
        step_refuses(&image, (&[3, 1, 0], &[2], 6), number, place);
    }
    step_refuses(&COUNTER, (&[3], &[2], 6), 10, 0);
    step_refuses(&COUNTER, (&[77, 1, 0], &[2], 6), 11, 0);
    step_refuses(&COUNTER, (&[3, 0, 0], &[2], 6), 20, 0);
    step_refuses(&COUNTER, (&[3, 1, 0], &[], 6), 12, 0);
    step_refuses(&COUNTER, (&[3, 1, 0], &[77], 6), 13, 0);
    step_refuses(&COUNTER, (&[3, 1, 0], &[2], 7), 14, 0);
}

// The bad row byte of the run stands in its last cycle, and the cycles before
// it are not run either.
#[test]
fn a_refused_run_changes_nothing() {
    for (image, number, place) in bad_images() {
        run_refuses(&image, 2, (&[3, 1, 0], &[2, 2], 2), number, place);
    }
    run_refuses(&COUNTER, 4097, (&[3, 1, 0], &[2, 2], 2), 9, 0);
    run_refuses(&COUNTER, 2, (&[3], &[2, 2], 2), 10, 0);
    run_refuses(&COUNTER, 2, (&[77, 1, 0], &[2, 2], 2), 11, 0);
    run_refuses(&COUNTER, 2, (&[3, 0, 0], &[2, 2], 2), 20, 0);
    run_refuses(&COUNTER, 2, (&[3, 1, 0], &[2, 2, 2], 2), 12, 0);
    run_refuses(&COUNTER, 2, (&[3, 1, 0], &[2, 77], 2), 13, 1);
    run_refuses(&COUNTER, 2, (&[3, 1, 0], &[2, 2], 3), 14, 0);
}

#[test]
fn a_refused_doubling_changes_nothing() {
    for (image, number, place) in bad_images() {
        double_refuses(&image, 120, number, place);
    }
    double_refuses(&counted(&const_and_ors(1024)), 120, 15, 0);
    double_refuses(&COUNTER, 119, 16, 0);
}
