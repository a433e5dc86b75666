//! The two-run property of document 01, from the states of request L2 of
//! document 02: any two states that agree in marks and in unmarked values, and by
//! request L7 have equal counts. It is tried on netlists with and without the
//! inverted pins of request L3.

use crate::images::*;
use crate::pins::inverted;
use crate::random::Numbers;
use crate::samples::*;
use crate::states::{doubled_state, registers, with_count};
use reference::Verdict;

/// Two bytes agree if they are equal, or if one is 2 and the other 3. Two lists
/// agree if they are equally long and agree place by place.
pub fn agree(first: &[u8], second: &[u8]) -> bool {
    let same = |a: u8, b: u8| a == b || matches!((a, b), (2, 3) | (3, 2));
    first.len() == second.len() && first.iter().zip(second).all(|(a, b)| same(*a, *b))
}

/// Two states of r registers agree if their first r bytes agree and the others are
/// equal. These are the count bytes if the state has r + 2 bytes.
pub fn states_agree(r: usize, first: &[u8], second: &[u8]) -> bool {
    let (first, first_count) = first.split_at(r.min(first.len()));
    let (second, second_count) = second.split_at(r.min(second.len()));
    agree(first, second) && first_count == second_count
}

/// Bytes that agree with these, with any values where a mark is 1.
fn other(numbers: &mut Numbers, bytes: &[u8]) -> Vec<u8> {
    let mut others = bytes.to_vec();
    for byte in &mut others {
        if *byte == 2 || *byte == 3 {
            *byte = 2 + numbers.below(2) as u8;
        }
    }
    others
}

/// Two lists of calls on one image: the state of each, and the state of its
/// calls on the doubled image. Before each call the lent buffers of the two hold
/// different bytes.
#[derive(Clone)]
struct Lists {
    source: Sample,
    doubled: Sample,
    states: [Vec<u8>; 2],
    doubled_states: [Vec<u8>; 2],
}

impl Lists {
    /// Two lists that start from these states. Register j's value and mark start
    /// the doubled registers 2j and 2j + 1.
    fn new(source: &Sample, states: [Vec<u8>; 2]) -> Lists {
        let lists = Lists {
            source: source.clone(),
            doubled: source.doubled(),
            doubled_states: [doubled_state(&states[0]), doubled_state(&states[1])],
            states,
        };
        lists.states_agree();
        lists
    }

    /// The states of the two lists agree.
    fn states_agree(&self) {
        let [first, second] = &self.states;
        assert!(states_agree(self.source.registers, first, second));
    }

    /// One step of each list. The verdicts are equal, and the nets and the
    /// states agree.
    fn step(&mut self, rows: [&[u8]; 2]) {
        let first = self.source.step_over(77, &self.states[0], rows[0]);
        let second = self.source.step_over(78, &self.states[1], rows[1]);
        assert_eq!(first.0, second.0);
        assert!(agree(&first.1, &second.1));
        self.states = [first.2, second.2];
        self.states_agree();
        self.step_doubled(rows);
    }

    /// The same step on the doubled image.
    fn step_doubled(&mut self, rows: [&[u8]; 2]) {
        let first = self.doubled.step(&self.doubled_states[0], &split(rows[0]));
        let second = self.doubled.step(&self.doubled_states[1], &split(rows[1]));
        doubled_outputs_agree(&self.doubled.outs(&first.1), &self.doubled.outs(&second.1));
        self.doubled_states = [first.2, second.2];
    }

    /// One run of each list. The answers are equal, and the outputs and the
    /// states agree. Each of its cycles is also made as a step, of which the
    /// same is claimed.
    fn run(&mut self, k: usize, rows: [&[u8]; 2]) {
        let mut by_steps = self.clone();
        for cycle in 0..k {
            let row = |list: usize| self.source.row(rows[list], cycle);
            by_steps.step([row(0), row(1)]);
        }
        let first = self.source.run_over(77, &self.states[0], k, rows[0]);
        let second = self.source.run_over(78, &self.states[1], k, rows[1]);
        assert_eq!(first.0, second.0);
        assert!(agree(&first.1, &second.1));
        self.states = [first.2, second.2];
        self.states_agree();
        assert_eq!(self.states, by_steps.states);
        self.run_doubled(k, rows);
        assert_eq!(self.doubled_states, by_steps.doubled_states);
    }

    /// The same run on the doubled image.
    fn run_doubled(&mut self, k: usize, rows: [&[u8]; 2]) {
        let states = &self.doubled_states;
        let first = self.doubled.run(&states[0], k, &split(rows[0]));
        let second = self.doubled.run(&states[1], k, &split(rows[1]));
        doubled_outputs_agree(&first.1, &second.1);
        self.doubled_states = [first.2, second.2];
    }

    /// Steps and runs of 0 to 4 cycles in a random order, with rows that agree.
    fn make_calls(&mut self, numbers: &mut Numbers) {
        for _ in 0..6 {
            let k = numbers.below(5);
            if numbers.below(2) == 0 {
                let row = numbers.bytes(self.source.inputs);
                self.step([&row, &other(numbers, &row)]);
            } else {
                let rows = numbers.bytes(k * self.source.inputs);
                self.run(k, [&rows, &other(numbers, &rows)]);
            }
        }
    }
}

/// The values at output 2j + 1 are equal in both, and where these are 0, the
/// values at output 2j are equal in both as well.
fn doubled_outputs_agree(first: &[u8], second: &[u8]) {
    let (first, second) = (values(first), values(second));
    for (one, two) in first.chunks(2).zip(second.chunks(2)) {
        assert_eq!(one[1], two[1]);
        if one[1] == 0 {
            assert_eq!(one[0], two[0]);
        }
    }
}

// The first list starts from power-up. In the second each register with start 2
// holds any value, with mark 1. In many of the netlists some value differs.
#[test]
fn two_lists_from_power_up_with_any_unknown_values() {
    let mut numbers = Numbers(3);
    let mut differed = 0;
    for source in samples(&mut numbers) {
        let state = source.power_up();
        let unknown = other(&mut numbers, registers(&state));
        let states = [state, with_count(&unknown)];
        if states[0] != states[1] {
            differed += 1;
        }
        Lists::new(&source, states).make_calls(&mut numbers);
    }
    assert!(differed > 50, "{differed}");
}

#[test]
fn two_lists_from_any_two_states_that_agree() {
    let mut numbers = Numbers(9);
    for source in samples(&mut numbers) {
        let bytes = numbers.bytes(source.registers);
        let states = [other(&mut numbers, &bytes), bytes].map(|bytes| with_count(&bytes));
        Lists::new(&source, states).make_calls(&mut numbers);
    }
}

/// One step from all states of three registers, each with all that agree with
/// it.
fn agrees_from_all_states(source: &Sample) {
    for first in all_triples() {
        for second in all_triples() {
            if agree(&first, &second) {
                let states = [with_count(&first), with_count(&second)];
                Lists::new(source, states).step([&[], &[]]);
            }
        }
    }
}

// Three REGs with start 2 that hold their bytes, one gate on them, and a
// protected OUT, with each choice of the gate's pins inverted.
#[test]
fn every_gate_agrees_from_all_states_that_agree() {
    for source in gates_on(REG) {
        agrees_from_all_states(&source);
    }
}

// Three REGs with start 2 that pass their bytes on in a ring, with each choice
// of their pins inverted.
#[test]
fn registers_with_inverted_pins_agree_from_all_states_that_agree() {
    for source in rings() {
        agrees_from_all_states(&source);
    }
}

// Two registers: the first with start 2 and a protected OUT, the second taking
// the AND of the first and the row. By hand, with the row 3 in both lists:
//
// - Registers 2, 0: the AND of 2 and 3 is 2, the OUT 2: a flow at net 4.
// - Registers 3, 0: the AND of 3 and 3 is 3, the OUT 3: a flow at net 4.
//
// The verdicts are equal and the bytes agree. The registers 2, 2 and 3, 3 agree,
// and both counts become 2.
#[test]
fn an_unknown_register_with_either_value() {
    let source = sample(&[
        (REG, 0, 2, 0),
        (REG, 3, 0, 0),
        (INPUT, 0, 0, 0),
        (AND, 0, 2, 0),
        (OUT, 0, 1, 0),
    ]);
    let states = [vec![2, 0, 1, 0], vec![3, 0, 1, 0]];
    assert_eq!(source.power_up(), states[0]);
    let flow = Verdict::Flow(4);
    let first = source.step(&states[0], &[3]);
    assert_eq!(first, (flow, vec![2, 0, 3, 2, 2], vec![2, 2, 2, 0]));
    let second = source.step(&states[1], &[3]);
    assert_eq!(second, (flow, vec![3, 0, 3, 3, 3], vec![3, 3, 2, 0]));
    Lists::new(&source, states).step([&[3], &[3]]);
}

// A register with start 2 that takes its own byte inverted, the AND of the row
// and the register inverted, and a protected OUT of the AND inverted. By hand,
// with the row 3 in both lists:
//
// - Register 2: the AND of 3 and 3 is 3, the OUT 2: a flow at net 3. Then 3.
// - Register 3: the AND of 2 and 3 is 2, the OUT 3: a flow at net 3. Then 2.
//
// The verdicts are equal and the bytes agree.
#[test]
fn an_unknown_register_with_either_value_behind_inverted_pins() {
    let source = sample(&[
        (REG, inverted(0), 2, 0),
        (INPUT, 0, 0, 0),
        (AND, inverted(0), 1, 0),
        (OUT, inverted(2), 1, 0),
    ]);
    let states = [vec![2, 1, 0], vec![3, 1, 0]];
    assert_eq!(source.power_up(), states[0]);
    let flow = Verdict::Flow(3);
    let first = source.step(&states[0], &[3]);
    assert_eq!(first, (flow, vec![2, 3, 3, 2], vec![3, 1, 0]));
    let second = source.step(&states[1], &[3]);
    assert_eq!(second, (flow, vec![3, 3, 2, 3], vec![2, 1, 0]));
    Lists::new(&source, states).step([&[3], &[3]]);
}
