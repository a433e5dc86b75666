//! The count of marked registers at the end of a state: request L7 of document 02.
//! It is a u16, low byte first. The bytes 2 and 3 are marked.

use crate::images::*;
use crate::samples::{all_triples, sample, Sample};
use crate::states::{doubled_state, with_count};
use reference::{power_up, run, state_length, state_of, step, Verdict};

/// A chain of three registers behind an INPUT, with starts 2, 1 and 2.
fn chain() -> Sample {
    sample(&[
        (INPUT, 0, 0, 0),
        (REG, 0, 2, 0),
        (REG, 1, 1, 0),
        (REG, 2, 2, 0),
    ])
}

/// The rows of six cycles of the chain.
const CHAIN_ROWS: [u8; 6] = [2, 3, 2, 0, 1, 0];

/// The states of the chain at power-up and after each of the six clocks. Each clock
/// moves the registers on by one place and puts the row byte before them.
const CHAIN_STATES: [[u8; 5]; 7] = [
    [2, 1, 2, 2, 0],
    [2, 2, 1, 2, 0],
    [3, 2, 2, 3, 0],
    [2, 3, 2, 3, 0],
    [0, 2, 3, 2, 0],
    [1, 0, 2, 1, 0],
    [0, 1, 0, 0, 0],
];

/// This many registers behind an INPUT, each taking its byte, with this start.
fn many(registers: usize, start: u16) -> Vec<u8> {
    let mut nets = vec![(INPUT, 0, 0, 0)];
    nets.extend(vec![(REG, 0, start, 0); registers]);
    counted(&nets)
}

// A register with start 2 wakes marked. Without registers the state is the count
// alone.
#[test]
fn power_up_sets_the_count() {
    assert_eq!(chain().power_up(), CHAIN_STATES[0]);
    let starts = |starts: &[u16]| -> Vec<u8> {
        let nets: Vec<Entry> = starts.iter().map(|start| (REG, 0, *start, 0)).collect();
        sample(&nets).power_up()
    };
    assert_eq!(starts(&[0]), [0, 0, 0]);
    assert_eq!(starts(&[1]), [1, 0, 0]);
    assert_eq!(starts(&[2]), [2, 1, 0]);
    assert_eq!(starts(&[2, 2]), [2, 2, 2, 0]);
    assert_eq!(starts(&[0, 1, 0, 1]), [0, 1, 0, 1, 0, 0]);
    assert_eq!(starts(&[2, 0, 2, 1, 2]), [2, 0, 2, 1, 2, 3, 0]);
    assert_eq!(sample(&[(INPUT, 0, 0, 0)]).power_up(), [0, 0]);
}

#[test]
fn each_step_keeps_the_count() {
    let mut state = chain().power_up();
    for (row, after) in CHAIN_ROWS.iter().zip(&CHAIN_STATES[1..]) {
        state = chain().step(&state, &[*row]).2;
        assert_eq!(state, after);
    }
}

// A run of K cycles leaves the state after its last clock, and K = 0 the one that
// it was lent. A second run goes on from there.
#[test]
fn each_run_keeps_the_count() {
    for (k, after) in CHAIN_STATES.iter().enumerate() {
        let (first, second) = CHAIN_ROWS.split_at(k);
        let state = chain().run(&CHAIN_STATES[0], k, first).2;
        assert_eq!(state, after);
        let state = chain().run(&state, 6 - k, second).2;
        assert_eq!(state, CHAIN_STATES[6]);
    }
}

// Registers that hold their bytes, from all 64 states of three of them.
#[test]
fn the_count_of_all_states_of_three_registers() {
    for bytes in all_triples() {
        let marked = bytes.iter().filter(|byte| [2, 3].contains(*byte)).count();
        let mut state = bytes.to_vec();
        state.extend([marked as u8, 0]);
        let mut lent = state.clone();
        let verdict = step(&three_registers(), &mut lent, &[], &mut [77; 3]);
        assert_eq!((verdict, &lent), (Ok(Verdict::Clear), &state));
        assert!(run(&three_registers(), 2, &mut lent, &[], &mut []).is_ok());
        assert_eq!(lent, state);
    }
}

// Each entry is a number of registers, of which all are marked or none, and the two
// bytes of the number: 258 is 2 + 256 * 1, and 8,191 is 255 + 256 * 31.
#[test]
fn the_low_byte_of_the_count_comes_first() {
    for (registers, bytes) in [
        (3, [3, 0]),
        (4, [4, 0]),
        (255, [255, 0]),
        (256, [0, 1]),
        (257, [1, 1]),
        (258, [2, 1]),
        (1028, [4, 4]),
        (8191, [255, 31]),
    ] {
        let image = many(registers, 2);
        let mut state = vec![77; registers + 2];
        let mut nets = vec![77; registers + 1];
        power_up(&image, &mut state).unwrap();
        assert_eq!(state[registers..], bytes);
        // A row of 0 unmarks all of them, and a row of 3 marks them again.
        step(&image, &mut state, &[0], &mut nets).unwrap();
        assert_eq!(state, vec![0; registers + 2]);
        step(&image, &mut state, &[3], &mut nets).unwrap();
        assert_eq!(state[..registers], vec![3; registers]);
        assert_eq!(state[registers..], bytes);
        run(&image, 2, &mut state, &[0, 2], &mut []).unwrap();
        assert_eq!(state[..registers], vec![2; registers]);
        assert_eq!(state[registers..], bytes);
        power_up(&many(registers, 1), &mut state).unwrap();
        assert_eq!(state[..registers], vec![1; registers]);
        assert_eq!(state[registers..], [0, 0]);
    }
}

// 8,192 is 0 + 256 * 32. Each register holds its own byte.
#[test]
fn the_count_of_8192_registers() {
    let nets: Vec<Entry> = (0..8192).map(|net| (REG, net, 2, 0)).collect();
    let image = counted(&nets);
    let mut state = vec![77; 8194];
    power_up(&image, &mut state).unwrap();
    assert_eq!(state[8191..], [2, 0, 32]);
    step(&image, &mut state, &[], &mut vec![77; 8192]).unwrap();
    assert_eq!(state[8191..], [2, 0, 32]);
}

// Of 300 registers that hold their bytes the first are marked, from none of them to
// all. A count byte above 3 is no bad byte.
#[test]
fn every_right_count_is_accepted() {
    let nets: Vec<Entry> = (0..300).map(|net| (REG, net, 0, 0)).collect();
    let image = counted(&nets);
    for marked in 0..=300 {
        let mut state = vec![3; marked];
        state.resize(300, 1);
        state.extend([(marked % 256) as u8, (marked / 256) as u8]);
        let mut lent = state.clone();
        assert!(step(&image, &mut lent, &[], &mut [77; 300]).is_ok());
        assert_eq!(lent, state);
        assert!(run(&image, 1, &mut lent, &[], &mut []).is_ok());
        assert_eq!(lent, state);
    }
}

// A doubled netlist counts its own marked registers. From the doubled state of the
// source's power-up, with rows of plain values, none of its registers is ever
// marked. At its own power-up those with start 2 are: the value registers of the
// first and the last one of the chain. The rows v, t are 0, 1 and 1, 0.
#[test]
fn the_doubled_state_has_a_count_of_its_own() {
    let doubled = chain().doubled();
    let state = doubled_state(&CHAIN_STATES[0]);
    assert_eq!(state, [0, 1, 1, 0, 0, 1, 0, 0]);
    let after = doubled.step(&state, &[0, 1]).2;
    assert_eq!(after, [0, 1, 0, 1, 1, 0, 0, 0]);
    let own = doubled.power_up();
    assert_eq!(own, [2, 1, 1, 0, 2, 1, 2, 0]);
    let after = doubled.step(&own, &[0, 1]).2;
    assert_eq!(after, [0, 1, 2, 1, 1, 0, 1, 0]);
    let after = doubled.step(&after, &[1, 0]).2;
    assert_eq!(after, [1, 0, 0, 1, 2, 1, 1, 0]);
}

// What the library makes of register bytes, by hand and against the states of the
// tests.
#[test]
fn states_made_by_the_library() {
    assert_eq!([0, 1, 300, 8192].map(state_length), [2, 3, 302, 8194]);
    assert_eq!(state_of(&[]), [0, 0]);
    assert_eq!(state_of(&[0, 1, 2, 3]), [0, 1, 2, 3, 2, 0]);
    assert_eq!(state_of(&[2; 258])[257..], [2, 2, 1]);
    for bytes in all_triples() {
        assert_eq!(state_of(&bytes), with_count(&bytes));
        assert_eq!(state_of(&bytes).len(), state_length(3));
    }
}
