//! What is refused of a state with a count: request L7 of document 02. The
//! functions of `lent` see to it that no lent byte changed. The order among other
//! refusals is tried in `order`.

use crate::images::*;
use crate::lent::*;
use crate::samples::{all_triples, sample};
use crate::states::{registers, with_count};
use reference::{power_up, run, static_power_up, static_run, step};

// A state of R bytes or of any other length than R + 2. All counts in them are
// those of their register bytes.
#[test]
fn refusal_10_is_any_length_but_r_and_2() {
    for length in [0, 1, 2, 4, 5, 300] {
        power_up_refuses(&COUNTER, &vec![0; length], 10, 0);
        step_refuses(&COUNTER, (&vec![0; length], &[0], 6), 10, 0);
        run_refuses(&COUNTER, 1, (&vec![0; length], &[0], 1), 10, 0);
    }
    for length in [0, 1, 3] {
        power_up_refuses(&two_inputs(), &vec![0; length], 10, 0);
        step_refuses(&two_inputs(), (&vec![0; length], &[0; 2], 2), 10, 0);
        run_refuses(&two_inputs(), 1, (&vec![0; length], &[0; 2], 0), 10, 0);
    }
    for length in [3, 4, 6] {
        power_up_refuses(&three_registers(), &vec![0; length], 10, 0);
        step_refuses(&three_registers(), (&vec![0; length], &[], 3), 10, 0);
        run_refuses(&three_registers(), 0, (&vec![0; length], &[], 0), 10, 0);
    }
}

// Of all 65,536 counts one is right for each state of three registers. It is tried
// for one state of each number of marked registers.
#[test]
fn refusal_20_is_any_other_count() {
    for (bytes, marked) in [
        ([0, 1, 0], 0),
        ([1, 3, 0], 1),
        ([2, 1, 3], 2),
        ([3, 2, 2], 3),
    ] {
        for count in 0..=u16::MAX {
            let mut state = bytes.to_vec();
            state.extend(count.to_le_bytes());
            if count == marked {
                assert!(step(&three_registers(), &mut state, &[], &mut [77; 3]).is_ok());
                assert!(run(&three_registers(), 1, &mut state, &[], &mut []).is_ok());
            } else {
                step_refuses(&three_registers(), (&state, &[], 3), 20, 0);
                run_refuses(&three_registers(), 1, (&state, &[], 0), 20, 0);
            }
        }
    }
}

// Without registers the count is 0.
#[test]
fn refusal_20_without_registers() {
    for count in [[1, 0], [0, 1], [255, 255]] {
        step_refuses(&two_inputs(), (&count, &[0; 2], 2), 20, 0);
        run_refuses(&two_inputs(), 2, (&count, &[0; 4], 0), 20, 0);
        run_refuses(&two_inputs(), 0, (&count, &[], 0), 20, 0);
    }
}

// 11 looks at the register bytes alone: a wrong count is 20, however large its
// bytes are. A register byte above 3 is 11, also if the count bytes are too.
#[test]
fn refusal_11_does_not_look_at_the_count() {
    for byte in 4..=255 {
        step_refuses(&COUNTER, (&[0, byte, 0], &[0], 6), 20, 0);
        step_refuses(&COUNTER, (&[3, 1, byte], &[0], 6), 20, 0);
        run_refuses(&COUNTER, 1, (&[0, byte, byte], &[0], 1), 20, 0);
        step_refuses(&COUNTER, (&[byte, byte, byte], &[0], 6), 11, 0);
        run_refuses(&COUNTER, 1, (&[byte, byte, byte], &[0], 1), 11, 0);
    }
}

// A step from a state with a wrong count is refused until power-up has set it.
// Power-up does not look at the bytes, and starts 0, 1 and 2 give 0, 1 and 2.
#[test]
fn power_up_draws_neither_11_nor_20() {
    let held = three_registers();
    for old in [
        [0, 1, 2, 0, 0],
        [0, 0, 0, 3, 0],
        [3, 3, 3, 0, 3],
        [255, 4, 9, 255, 255],
    ] {
        let mut state = old;
        assert!(step(&held, &mut state, &[], &mut [77; 3]).is_err());
        assert_eq!(state, old);
        assert_eq!(power_up(&held, &mut state), Ok(()));
        assert_eq!(state, [0, 1, 2, 1, 0]);
        assert!(step(&held, &mut state, &[], &mut [77; 3]).is_ok());
    }
}

// The doubled state with the count of the source's state. The registers 2 and 3
// become 0, 1 and 1, 1, of which none is marked.
#[test]
fn the_doubled_state_does_not_take_the_count_of_the_source() {
    let source = sample(&[(REG, 0, 0, 0), (REG, 1, 0, 0)]);
    let doubled = source.doubled().image;
    assert!(run(&source.image, 1, &mut [2, 3, 2, 0], &[], &mut []).is_ok());
    run_refuses(&doubled, 1, (&[0, 1, 1, 1, 2, 0], &[], 0), 20, 0);
    step_refuses(&doubled, (&[0, 1, 1, 1, 4, 0], &[], 4), 20, 0);
    assert!(run(&doubled, 1, &mut [0, 1, 1, 1, 0, 0], &[], &mut []).is_ok());
}

// A static state is R codes. With a count behind them, also with the right one, it
// draws 10, and R codes alone never draw 20.
#[test]
fn static_calls_take_r_codes() {
    let held = three_registers();
    for bytes in all_triples() {
        let state = with_count(&bytes);
        static_power_up_refuses(&held, &state, 10, 0);
        static_run_refuses(&held, 1, (&state, &[], 0), 10, 0);
        let mut codes = registers(&state).to_vec();
        assert!(static_run(&held, 1, &mut codes, &[], &mut []).is_ok());
        assert_eq!(codes, bytes);
        assert_eq!(static_power_up(&held, &mut codes), Ok(()));
        assert_eq!(codes, [0, 1, 6]);
        assert!(static_run(&held, 0, &mut codes, &[], &mut []).is_ok());
    }
    assert_eq!(static_power_up(&two_inputs(), &mut []), Ok(()));
    static_power_up_refuses(&two_inputs(), &[0, 0], 10, 0);
}

// With three registers, codes whose last two bytes would read as a count: they are
// codes of registers, whatever they are.
#[test]
fn a_static_state_has_no_count_to_be_wrong() {
    for codes in [[2, 0, 0], [0, 6, 0], [6, 4, 6], [3, 3, 3]] {
        let mut state = codes;
        assert!(static_run(&three_registers(), 2, &mut state, &[], &mut []).is_ok());
        assert_eq!(state, codes);
    }
}
