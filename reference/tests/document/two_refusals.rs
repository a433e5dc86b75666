//! Two lists of calls that turn back: part of the two-run property of document 01,
//! from the states of requests L2 and L7 of document 02.

use crate::images::*;
use crate::lent::*;
use crate::two_runs::{agree, states_agree};
use reference::step;

/// A run of K cycles turns back in both lists with this number and place and
/// leaves its state and its buffer. With K = 1 so does a step.
fn both_refuse(k: usize, states: [&[u8]; 2], rows: [&[u8]; 2], (number, place): (u32, usize)) {
    let source = counted(&[
        (REG, 0, 2, 0),
        (REG, 1, 2, 0),
        (INPUT, 0, 0, 0),
        (OUT, 0, 1, 0),
    ]);
    assert!(states_agree(2, states[0], states[1]) && agree(rows[0], rows[1]));
    for (state, row) in states.into_iter().zip(rows) {
        run_refuses(&source, k, (state, row, k), number, place);
        if k == 1 {
            step_refuses(&source, (state, row, 4), number, place);
        }
    }
}

// States that agree may also be of another length than R + 2, or have register
// bytes above 3, which are then equal, or a wrong count. Both lists turn back alike.
#[test]
fn states_and_rows_that_agree_are_refused_alike() {
    let marked: [&[u8]; 2] = [&[2, 3, 2, 0], &[3, 2, 2, 0]];
    let rows: [&[u8]; 2] = [&[2], &[3]];
    both_refuse(1, [&[2], &[3]], rows, (10, 0));
    both_refuse(1, [&[2, 3], &[3, 2]], rows, (10, 0));
    both_refuse(1, [&[2, 3, 2, 0, 0], &[3, 2, 2, 0, 0]], rows, (10, 0));
    both_refuse(1, [&[2, 4, 1, 0], &[3, 4, 1, 0]], rows, (11, 1));
    both_refuse(1, [&[255, 2, 1, 0], &[255, 3, 1, 0]], rows, (11, 0));
    both_refuse(1, [&[2, 3, 3, 0], &[3, 2, 3, 0]], rows, (20, 0));
    both_refuse(1, [&[2, 3, 2, 2], &[3, 2, 2, 2]], rows, (20, 0));
    both_refuse(1, marked, [&[2, 2], &[3, 3]], (12, 0));
    both_refuse(1, marked, [&[4], &[4]], (13, 0));
    both_refuse(2, marked, [&[2, 9], &[3, 9]], (13, 1));
    both_refuse(0, [&[2, 9, 1, 0], &[3, 9, 1, 0]], [&[], &[]], (11, 1));
    both_refuse(0, [&[2, 3, 0, 0], &[3, 2, 0, 0]], [&[], &[]], (20, 0));
    both_refuse(4097, [&[2, 9, 0, 0], &[3, 9, 0, 0]], [&[], &[]], (9, 0));
}

// The counts 2 and 3 would agree as register bytes do, but are not equal, so the
// states do not agree: of three marked registers one state is accepted and the
// other draws 20. The same holds for the high bytes of 515 = 3 + 256 * 2 and 771 =
// 3 + 256 * 3 marked registers.
#[test]
fn counts_that_are_not_equal_do_not_agree() {
    let right = [2, 3, 3, 3, 0];
    let wrong = [2, 3, 3, 2, 0];
    assert!(agree(&right, &wrong) && !states_agree(3, &right, &wrong));
    let held = three_registers();
    assert!(step(&held, &mut right.clone(), &[], &mut [77; 3]).is_ok());
    step_refuses(&held, (&wrong, &[], 3), 20, 0);
    let mut right = vec![3; 515];
    right.extend([3, 2]);
    let mut wrong = right.clone();
    wrong[516] = 3;
    assert!(agree(&right, &wrong) && !states_agree(515, &right, &wrong));
    let held: Vec<Entry> = (0..515).map(|net| (REG, net, 0, 0)).collect();
    assert!(step(&counted(&held), &mut right, &[], &mut [77; 515]).is_ok());
    step_refuses(&counted(&held), (&wrong, &[], 515), 20, 0);
}
