//! "Readings that would be wrong" in document 01, and wrong readings of requests
//! L1, L2, L3 and L5 of document 02, each as a test that the wrong reading fails.

use crate::counter::{counter_run, CYCLES};
use crate::images::*;
use crate::lent::refused;
use crate::pins::inverted;
use reference::{double, doubled_size, mux_byte, power_up, run, step, xor_byte, Verdict};

// With a mark on a gate whenever a pin is marked, AND(3, 0) in cycle 2 would be
// 2, and the register would be marked for ever. By the rule it is 0, and cycle
// 3 is clear with the output byte 0 and the register 1.
#[test]
fn the_counter_comes_clean() {
    assert_eq!(CYCLES[2][4], 0);
    let mut state = [2, 1, 0];
    let mut nets = [77; 6];
    assert!(step(&COUNTER, &mut state, &[1], &mut nets).is_ok());
    assert_eq!(nets, CYCLES[2]);
    assert_eq!(state, [0, 0, 0]);
    let verdict = step(&COUNTER, &mut state, &[0], &mut nets);
    assert_eq!(verdict, Ok(Verdict::Clear));
    assert_eq!(nets[5], 0);
    assert_eq!(state, [1, 0, 0]);
}

// Two registers take each other's net, so their bytes change places with every
// clock. If one saw the other's new byte, both would be equal after one clock.
#[test]
fn registers_change_places() {
    let image = counted(&[(REG, 1, 1, 0), (REG, 0, 0, 0)]);
    let mut state = [77; 4];
    let mut nets = [77; 2];
    power_up(&image, &mut state).unwrap();
    assert_eq!(state, [1, 0, 0, 0]);
    for expected in [[0, 1, 0, 0], [1, 0, 0, 0], [0, 1, 0, 0]] {
        step(&image, &mut state, &[], &mut nets).unwrap();
        assert_eq!(state, expected);
    }
    state = [2, 3, 2, 0];
    run(&image, 3, &mut state, &[], &mut []).unwrap();
    assert_eq!(state, [3, 2, 2, 0]);
}

// A chain of three registers, in both net orders, delays a row byte by three
// cycles: rows 3, 0, 0, 1, 0 after the start 0, 0, 0 give 0, 0, 0, 3, 0.
#[test]
fn a_chain_of_registers_delays() {
    let forward = counted(&[
        (INPUT, 0, 0, 0),
        (REG, 0, 0, 0),
        (REG, 1, 0, 0),
        (REG, 2, 0, 0),
        (OUT, 3, 0, 0),
    ]);
    let backward = counted(&[
        (REG, 1, 0, 0),
        (REG, 2, 0, 0),
        (REG, 3, 0, 0),
        (INPUT, 0, 0, 0),
        (OUT, 0, 0, 0),
    ]);
    for image in [forward, backward] {
        let mut outputs = [77; 5];
        run(&image, 5, &mut [0; 5], &[3, 0, 0, 1, 0], &mut outputs).unwrap();
        assert_eq!(outputs, [0, 0, 0, 3, 0]);
    }
}

// The counter's first flow is in cycle 1, and the output bytes of cycles 2 and
// 3 are there, as is the last state.
#[test]
fn outputs_go_on_after_the_first_flow() {
    let (answer, outputs, state) = counter_run();
    assert_eq!(answer.cycle, 1);
    assert_eq!(outputs[2..], [2, 0]);
    assert_eq!(state, [1, 0, 0]);
}

// XOR of one marked net with itself has value 0 and mark 1, so it is 2, for
// both values of the net. An unmarked net gives 0.
#[test]
fn xor_of_a_marked_net_with_itself_is_marked() {
    assert_eq!([0, 1, 2, 3].map(|a| xor_byte(a, a)), [0, 0, 2, 2]);
    let image = counted(&[(INPUT, 0, 0, 0), (XOR, 0, 0, 0), (OUT, 1, 1, 0)]);
    for row in [2, 3] {
        let mut nets = [77; 3];
        let verdict = step(&image, &mut [0, 0], &[row], &mut nets);
        assert_eq!(verdict, Ok(Verdict::Flow(2)));
        assert_eq!(nets, [row, 2, 2]);
    }
}

// In the doubled netlist of the same XOR the mark net is OR(t0, t0). For the
// rows v, t = 0, 1 and 1, 1 the outputs are 0 and 1.
#[test]
fn the_doubled_xor_with_itself_is_marked() {
    let image = counted(&[(INPUT, 0, 0, 0), (XOR, 0, 0, 0), (OUT, 1, 1, 0)]);
    let mut doubled = [77; 50];
    double(&image, &mut doubled).unwrap();
    let mut outputs = [77; 4];
    run(&doubled, 2, &mut [0, 0], &[0, 1, 1, 1], &mut outputs).unwrap();
    assert_eq!(outputs, [0, 1, 0, 1]);
}

// The counter has the kinds INPUT, REG, NOT, NOT, AND, OUT. Counts of the source
// would be 0, 1, 1, 2, 1, 0, 0, 0, 1, and with two for each net 0, 2, 2, 4, 2,
// 0, 0, 0, 2. The counts are those of the doubled netlist, which has ORs.
#[test]
fn the_kinds_are_not_those_of_the_source() {
    let kinds = doubled_size(&COUNTER).unwrap().kinds;
    assert_eq!(kinds, [0, 2, 2, 2, 4, 4, 0, 0, 2]);
}

// With one count for a group, or with the whole group under the source net's
// kind, an AND behind a CONST would give the counts 1 of each, or 2 CONSTs and 6
// ANDs. Its group has 4 ANDs and 2 ORs.
#[test]
fn each_net_of_a_group_counts_for_its_own_kind() {
    let image = counted(&[(CONST, 0, 0, 0), (AND, 0, 0, 0)]);
    let kinds = doubled_size(&image).unwrap().kinds;
    assert_eq!(kinds, [2, 0, 0, 0, 4, 2, 0, 0, 0]);
}

// 1,366 ANDs behind a CONST are 1,367 nets, not more than 8,192, but they
// double to 2 + 6 * 1,366 = 8,198. The figures are not given beside 15, and one
// AND less gives 8,192 nets.
#[test]
fn the_figures_turn_back_above_8192_doubled_nets() {
    let mut nets = vec![(CONST, 0, 0, 0)];
    nets.extend(vec![(AND, 0, 0, 0); 1365]);
    assert_eq!(doubled_size(&counted(&nets)).unwrap().nets, 8192);
    nets.push((AND, 0, 0, 0));
    assert_eq!(doubled_size(&counted(&nets)), refused(15, 0));
}

/// A register with start 2 that takes the row's byte, and a protected OUT of it.
fn unknown_then_row() -> Vec<u8> {
    counted(&[(INPUT, 0, 0, 0), (REG, 0, 2, 0), (OUT, 1, 1, 0)])
}

// Taken as a trusted 0, a start of 2 would give the output bytes 0, 1 and no
// flow. Taken as unknown in every cycle, it would give 2, 3. It is unknown until
// its first clock: cycle 0 shows 2, and cycle 1 the row byte 1 of cycle 0. The
// register is then the row byte 0 of cycle 1.
#[test]
fn an_unknown_register_is_neither_trusted_nor_unknown_for_ever() {
    let mut state = [77; 3];
    let mut outputs = [77; 2];
    power_up(&unknown_then_row(), &mut state).unwrap();
    let answer = run(&unknown_then_row(), 2, &mut state, &[1, 0], &mut outputs).unwrap();
    assert_eq!((answer.cycle, answer.verdict), (0, Verdict::Flow(2)));
    assert_eq!(outputs, [2, 1]);
    assert_eq!(state, [0, 0, 0]);
}

// A mark register with start 0 or 2 would show the plain value 0 in cycle 0,
// where the register is marked. With start 1 it shows 1. The rows v, t of the
// doubled run are 1, 0 and 0, 0, so the output values v, t are 0, 1 and 1, 0.
#[test]
fn the_mark_register_of_an_unknown_one_starts_at_1() {
    let mut doubled = [77; 50];
    double(&unknown_then_row(), &mut doubled).unwrap();
    let mut state = [77; 4];
    let mut outputs = [77; 4];
    power_up(&doubled, &mut state).unwrap();
    run(&doubled, 2, &mut state, &[1, 0, 0, 0], &mut outputs).unwrap();
    assert_eq!(outputs.map(|byte| byte % 2), [0, 1, 1, 0]);
}

// With the mark inverted too, a trusted INPUT behind an inverted pin would be a
// flow, and an untrusted one would be clear. By the rule 0, 1, 2, 3 become 1, 0,
// 3, 2. In the doubled netlist a bit on the mark pin would do the same: its rows
// v, t are 0, 0; 1, 0; 0, 1; 1, 1, and v alone is inverted.
#[test]
fn an_inverted_pin_leaves_the_mark() {
    let image = counted(&[(INPUT, 0, 0, 0), (OUT, inverted(0), 1, 0)]);
    let mut outputs = [77; 4];
    let answer = run(&image, 4, &mut [0, 0], &[0, 1, 2, 3], &mut outputs).unwrap();
    assert_eq!((answer.cycle, answer.verdict), (2, Verdict::Flow(1)));
    assert_eq!(outputs, [1, 0, 3, 2]);
    let mut doubled = [77; 36];
    double(&image, &mut doubled).unwrap();
    let rows = [0, 0, 1, 0, 0, 1, 1, 1];
    let mut outputs = [77; 8];
    run(&doubled, 4, &mut [0, 0], &rows, &mut outputs).unwrap();
    assert_eq!(outputs, [1, 0, 0, 0, 1, 1, 0, 1]);
}

// With the bit read at the register's own net, or at power-up, cycle 0 would
// show 1. The register starts at 0 and shows 0, and at the clock it takes the
// row's byte 0 inverted, which cycle 1 shows as 1. With the bit read at the
// clock and again in the cycle, cycle 1 would show 0.
#[test]
fn a_register_is_inverted_at_the_clock_and_nowhere_else() {
    let image = counted(&[(INPUT, 0, 0, 0), (REG, inverted(0), 0, 0), (OUT, 1, 0, 0)]);
    let mut state = [77; 3];
    let mut outputs = [77; 3];
    power_up(&image, &mut state).unwrap();
    assert_eq!(state, [0, 0, 0]);
    run(&image, 3, &mut state, &[0, 1, 0], &mut outputs).unwrap();
    assert_eq!(outputs, [0, 1, 0]);
    assert_eq!(state, [1, 0, 0]);
}

// The bit stands for the pin and not for its net or its gate. AND of both pins
// inverted is 1 only if both nets are 0, where an inverted AND would be 1 unless
// both are 1. Net 3 reads the same nets as they are.
#[test]
fn the_bit_inverts_neither_the_net_nor_the_gate() {
    let image = counted(&[
        (INPUT, 0, 0, 0),
        (INPUT, 0, 0, 0),
        (AND, inverted(0), inverted(1), 0),
        (AND, 0, 1, 0),
    ]);
    for (row, ands) in [
        ([0, 0], [1, 0]),
        ([0, 1], [0, 0]),
        ([1, 0], [0, 0]),
        ([1, 1], [0, 1]),
    ] {
        let mut nets = [77; 4];
        step(&image, &mut [0, 0], &row, &mut nets).unwrap();
        assert_eq!(nets[2..], ands);
    }
}

/// A mode switch: the row's byte selects between a CONST a and a CONST b, with a
/// protected OUT of the MUX as net 4.
fn mode_switch(a: u16, b: u16) -> Vec<u8> {
    counted(&[
        (INPUT, 0, 0, 0),
        (CONST, a, 0, 0),
        (CONST, b, 0, 0),
        (MUX, 1, 2, 0),
        (OUT, 3, 1, 0),
    ])
}

// With the mark of document 01's composition, a marked select between two CONSTs 1
// would be a flow, and one between two CONSTs 0 would not. By the rule both are
// clear for every row. Between different CONSTs a marked select is a flow.
#[test]
fn a_marked_select_between_equal_constants_is_clear() {
    for (a, b, outputs) in [(0, 0, [0; 4]), (1, 1, [1; 4])] {
        let mut found = [77; 4];
        let image = mode_switch(a, b);
        let answer = run(&image, 4, &mut [0, 0], &[0, 1, 2, 3], &mut found).unwrap();
        assert_eq!((answer.cycle, answer.verdict), (4, Verdict::Clear));
        assert_eq!(found, outputs);
    }
    for (a, b, outputs) in [(0, 1, [0, 1, 2, 3]), (1, 0, [1, 0, 3, 2])] {
        let mut found = [77; 4];
        let image = mode_switch(a, b);
        let answer = run(&image, 4, &mut [0, 0], &[0, 1, 2, 3], &mut found).unwrap();
        assert_eq!((answer.cycle, answer.verdict), (2, Verdict::Flow(4)));
        assert_eq!(found, outputs);
    }
}

// The same switches doubled: 2 + 2 + 2 + 7 + 2 = 15 nets and 8 + 7 * 15 = 113
// bytes. With p = OR(va, vb) the mark would be 1 between two CONSTs 1. The rows v,
// t are 0, 1 and 1, 1.
#[test]
fn the_doubled_select_between_equal_constants_is_unmarked() {
    let cases = [
        (0, 0, [0, 0, 0, 0]),
        (1, 1, [1, 0, 1, 0]),
        (0, 1, [0, 1, 1, 1]),
        (1, 0, [1, 1, 0, 1]),
    ];
    for (a, b, outputs) in cases {
        let mut doubled = [77; 113];
        double(&mode_switch(a, b), &mut doubled).unwrap();
        let mut found = [77; 4];
        run(&doubled, 2, &mut [0, 0], &[0, 1, 1, 1], &mut found).unwrap();
        assert_eq!(found, outputs);
    }
}

// With a marked select, equal values are not enough: a mark of either pin marks
// the MUX. With an unmarked select the other pin does not matter, whether it
// differs or is marked.
#[test]
fn equal_values_unmark_a_mux_only_if_both_pins_are_trusted() {
    assert_eq!([1, 3].map(|b| mux_byte(1, b, 2)), [1, 3]);
    assert_eq!([1, 3].map(|a| mux_byte(a, 1, 3)), [1, 3]);
    assert_eq!([0, 2].map(|b| mux_byte(0, b, 2)), [0, 2]);
    assert_eq!([0, 1, 2, 3].map(|b| mux_byte(1, b, 0)), [1; 4]);
    assert_eq!([0, 1, 2, 3].map(|a| mux_byte(a, 1, 1)), [1; 4]);
}
