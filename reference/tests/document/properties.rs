//! Promises of document 01 that join two results: a run and its steps, and a
//! netlist and its doubled netlist. They are tried on all rows and states of a
//! gate and on many small netlists, with and without inverted pins (request L3 of
//! document 02).

use crate::images::{INPUT, REG};
use crate::random::Numbers;
use crate::samples::*;
use crate::states::{doubled_state, registers, with_count};
use reference::{Verdict, GROUP_LENGTHS};

#[test]
fn a_run_is_its_steps() {
    let mut numbers = Numbers(2);
    for source in samples(&mut numbers) {
        let rows = numbers.bytes(8 * source.inputs);
        let start = with_count(&numbers.bytes(source.registers));
        let mut state = start.clone();
        let mut first = (8, Verdict::Clear);
        let mut expected = Vec::new();
        for cycle in 0..8 {
            let (verdict, nets, after) = source.step(&state, source.row(&rows, cycle));
            if first.1 == Verdict::Clear && verdict != Verdict::Clear {
                first = (cycle, verdict);
            }
            expected.extend(source.outs(&nets));
            state = after;
        }
        let (answer, outputs, run_state) = source.run(&start, 8, &rows);
        assert_eq!((answer.cycle, answer.verdict), first);
        assert_eq!(outputs, expected);
        assert_eq!(run_state, state);
    }
}

/// A state of the source and one of its doubled netlist, whose registers have as
/// plain values the values and marks of the former. Each of the two has its own
/// count, and these are not compared.
struct States {
    source: Vec<u8>,
    doubled: Vec<u8>,
}

/// Each of the two netlists has its own power-up. A value register with start 2
/// is marked in the doubled one, so the plain values alone are compared.
fn power_ups(source: &Sample) -> States {
    let states = States {
        source: source.power_up(),
        doubled: source.doubled().power_up(),
    };
    registers_pair(&states.source, &states.doubled);
    states
}

/// The plain values of the doubled registers are the values and marks of the
/// source's.
fn registers_pair(source: &[u8], doubled: &[u8]) {
    assert_eq!(values(registers(doubled)), split(registers(source)));
}

/// The source starts with these register bytes. Register j's value and mark start
/// the doubled registers 2j and 2j + 1.
fn from_registers(bytes: &[u8]) -> States {
    let source = with_count(bytes);
    States {
        doubled: doubled_state(&source),
        source,
    }
}

/// The doubled run's plain values are the values and marks of the run.
fn pairs(source: &Sample, states: &States, k: usize, rows: &[u8]) {
    let doubled = source.doubled();
    let (_, outputs, state) = source.run(&states.source, k, rows);
    let (answer, doubled_outputs, doubled_state) = doubled.run(&states.doubled, k, &split(rows));
    assert_eq!(values(&doubled_outputs), split(&outputs));
    registers_pair(&state, &doubled_state);
    // The OUTs of the doubled netlist are free, whatever is marked.
    assert_eq!((answer.cycle, answer.verdict), (k, Verdict::Clear));
}

/// The plain values of the value net and the mark net of each group, as bytes
/// v + 2t. The kind bytes of the source start at byte 8.
fn joined_groups(source: &Sample, doubled_nets: &[u8]) -> Vec<u8> {
    let mut bytes = Vec::new();
    let mut first = 0;
    for kind in &source.image[8..8 + source.n] {
        let length = GROUP_LENGTHS[usize::from(*kind)];
        let last = first + length - 1;
        bytes.push(doubled_nets[first] % 2 + 2 * (doubled_nets[last] % 2));
        first += length;
    }
    bytes
}

/// In each cycle the value net and the mark net of every group have the plain
/// values that the source's net has as value and mark.
fn nets_pair(source: &Sample, mut states: States, k: usize, rows: &[u8]) {
    let doubled = source.doubled();
    for cycle in 0..k {
        let row = source.row(rows, cycle);
        let (_, nets, state) = source.step(&states.source, row);
        let (_, doubled_nets, doubled_state) = doubled.step(&states.doubled, &split(row));
        assert_eq!(joined_groups(source, &doubled_nets), nets);
        registers_pair(&state, &doubled_state);
        states = States {
            source: state,
            doubled: doubled_state,
        };
    }
}

// Three INPUTs, one gate on them, and an OUT: all 64 rows for each kind and each
// choice of inverted pins.
#[test]
fn every_gate_pairs_on_all_rows() {
    let rows: Vec<u8> = all_triples().concat();
    for source in gates_on(INPUT) {
        pairs(&source, &power_ups(&source), 64, &rows);
        nets_pair(&source, power_ups(&source), 64, &rows);
    }
}

/// A netlist with three registers and no input pairs from power-up and from all
/// 64 states.
fn pairs_from_all_states(source: &Sample) {
    pairs(source, &power_ups(source), 1, &[]);
    nets_pair(source, power_ups(source), 2, &[]);
    for bytes in all_triples() {
        pairs(source, &from_registers(&bytes), 1, &[]);
        nets_pair(source, from_registers(&bytes), 2, &[]);
    }
}

// Three REGs with start 2 that hold their bytes, one gate on them, and an OUT:
// power-up and all 64 states for each kind and each choice of inverted pins.
#[test]
fn every_gate_pairs_from_all_states() {
    for source in gates_on(REG) {
        pairs_from_all_states(&source);
    }
}

// Three REGs with start 2 that pass their bytes on in a ring, with each choice
// of their pins inverted.
#[test]
fn registers_with_inverted_pins_pair_from_all_states() {
    for source in rings() {
        pairs_from_all_states(&source);
    }
}

#[test]
fn small_netlists_pair_from_power_up() {
    let mut numbers = Numbers(1);
    for source in samples(&mut numbers) {
        let rows = numbers.bytes(8 * source.inputs);
        pairs(&source, &power_ups(&source), 8, &rows);
        nets_pair(&source, power_ups(&source), 8, &rows);
    }
}

#[test]
fn small_netlists_pair_from_any_state() {
    let mut numbers = Numbers(7);
    for source in samples(&mut numbers) {
        let rows = numbers.bytes(8 * source.inputs);
        let bytes = numbers.bytes(source.registers);
        pairs(&source, &from_registers(&bytes), 8, &rows);
        nets_pair(&source, from_registers(&bytes), 8, &rows);
    }
}

// A doubled netlist is a netlist too, and its inverted pins are those of its
// source. It pairs with its own doubled netlist. Its rows and states may have
// marks here.
#[test]
fn doubled_netlists_pair_with_their_own_doubled_netlists() {
    let mut numbers = Numbers(11);
    for source in samples(&mut numbers).into_iter().take(200) {
        let doubled = source.doubled();
        let rows = numbers.bytes(3 * doubled.inputs);
        let bytes = numbers.bytes(doubled.registers);
        nets_pair(&doubled, power_ups(&doubled), 3, &rows);
        nets_pair(&doubled, from_registers(&bytes), 3, &rows);
    }
}

// The doubled netlist's own power-up and the doubled state of the source's
// power-up differ in the marks of value registers with start 2 alone, and so in
// the count. With the same rows the plain values of all nets are equal in every
// cycle. The second of the two never has a mark, so its count stays 0.
#[test]
fn marks_of_the_doubled_run_leave_its_plain_values() {
    let mut numbers = Numbers(8);
    for source in samples(&mut numbers) {
        let doubled = source.doubled();
        let mut own = doubled.power_up();
        let mut plain = doubled_state(&source.power_up());
        for _ in 0..8 {
            let row = split(&numbers.bytes(source.inputs));
            let (_, own_nets, own_state) = doubled.step(&own, &row);
            let (_, plain_nets, plain_state) = doubled.step(&plain, &row);
            assert_eq!(values(&own_nets), plain_nets);
            assert_eq!(values(registers(&own_state)), registers(&plain_state));
            assert!(plain_state.ends_with(&[0, 0]));
            (own, plain) = (own_state, plain_state);
        }
    }
}
