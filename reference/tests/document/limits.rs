//! Accepted limits and the first number beyond each.

use crate::images::*;
use crate::lent::*;
use reference::{check, image_length, power_up, run, step, FirstFlow, Verdict};

// 8 + 7 * 8,192 is 57,352, and 8 + 7 * 8,193 is 57,359.
#[test]
fn net_numbers_go_to_8192() {
    let most = counted(&vec![(CONST, 1, 0, 0); 8192]);
    assert_eq!(most.len(), 57352);
    assert_eq!(image_length(8192), 57352);
    assert_eq!(check(&most).unwrap().nets.len(), 8192);
    let above = counted(&vec![(CONST, 1, 0, 0); 8193]);
    assert_eq!(above.len(), 57359);
    check_refuses(&above, 2, 0);
}

#[test]
fn one_net_is_accepted_and_none_refused() {
    assert_eq!(check(&counted(&[(INPUT, 0, 0, 0)])).unwrap().inputs, 1);
    check_refuses(&counted(&[]), 2, 0);
}

// All 8,192 nets are INPUTs, or REGs, or (but for net 0) OUTs. Net 8,191 is the
// last. The flow at it carries its number.
#[test]
fn every_count_may_be_as_large_as_the_nets() {
    let inputs = check(&counted(&vec![(INPUT, 0, 0, 0); 8192])).unwrap();
    assert_eq!(inputs.inputs, 8192);
    let registers = check(&counted(&vec![(REG, 8191, 0, 0); 8192])).unwrap();
    assert_eq!(registers.registers, 8192);
    let mut nets = vec![(INPUT, 0, 0, 0)];
    nets.extend(vec![(OUT, 0, 0, 0); 8190]);
    nets.push((OUT, 8190, 1, 0));
    let outputs = counted(&nets);
    assert_eq!(check(&outputs).unwrap().outputs, 8191);
    let mut bytes = vec![0; 8192];
    let verdict = step(&outputs, &mut [0, 0], &[3], &mut bytes);
    assert_eq!(verdict, Ok(Verdict::Flow(8191)));
    assert_eq!(bytes, vec![3; 8192]);
}

// With rows of 0 the counter's register becomes NOT of itself in each cycle:
// net 3 is NOT 0 = 1, and net 4 is AND of NOT of the register and 1. From 0 the
// outputs are 0, 1, 0, 1 and so on, and after 4,096 cycles it is 0.
#[test]
fn a_run_of_4096_cycles_is_accepted() {
    let mut state = [0; 3];
    let mut outputs = vec![77; 4096];
    let answer = run(&COUNTER, 4096, &mut state, &[0; 4096], &mut outputs);
    let expected = FirstFlow {
        cycle: 4096,
        verdict: Verdict::Clear,
    };
    assert_eq!(answer, Ok(expected));
    assert_eq!(state, [0; 3]);
    for (cycle, byte) in outputs.iter().enumerate() {
        assert_eq!(usize::from(*byte), cycle % 2);
    }
}

// Products of these numbers with I = 2 or O = 1 would overflow in part.
#[test]
fn more_than_4096_cycles_are_refused() {
    for k in [4097, 65536, usize::MAX / 2 + 1, usize::MAX - 1, usize::MAX] {
        run_refuses(&COUNTER, k, (&[0; 3], &[0; 4], 4), 9, 0);
        run_refuses(&two_inputs(), k, (&[0, 0], &[], 0), 9, 0);
    }
}

// Three registers hold their own bytes, so the state stays as it was.
#[test]
fn register_bytes_go_to_3() {
    let held = three_registers();
    let mut state = [3, 2, 1, 2, 0];
    let mut nets = [77; 3];
    assert_eq!(step(&held, &mut state, &[], &mut nets), Ok(Verdict::Clear));
    assert_eq!(nets, [3, 2, 1]);
    assert_eq!(state, [3, 2, 1, 2, 0]);
    for bad in 4..=255 {
        step_refuses(&held, (&[0, 0, bad, 0, 0], &[], 3), 11, 2);
        run_refuses(&held, 1, (&[0, bad, bad, 0, 0], &[], 0), 11, 1);
    }
}

// The nets are the INPUTs themselves, so they have the row's bytes.
#[test]
fn row_bytes_go_to_3() {
    for good in 0..=3 {
        let mut nets = [77; 2];
        assert_eq!(
            step(&two_inputs(), &mut [0, 0], &[0, good], &mut nets),
            Ok(Verdict::Clear)
        );
        assert_eq!(nets, [0, good]);
    }
    for bad in 4..=255 {
        step_refuses(&two_inputs(), (&[0, 0], &[0, bad], 2), 13, 1);
        run_refuses(&two_inputs(), 2, (&[0, 0], &[3, 3, 3, bad], 0), 13, 3);
    }
}

// Power-up ignores what the state buffer held, bytes above 3 and wrong counts too.
// Starts 0, 1 and 2 make the bytes 0, 1 and 2, of which one is marked.
#[test]
fn power_up_ignores_the_old_state() {
    for old in [0, 1, 3, 4, 255] {
        let mut state = [old; 5];
        assert_eq!(power_up(&three_registers(), &mut state), Ok(()));
        assert_eq!(state, [0, 1, 2, 1, 0]);
    }
}
