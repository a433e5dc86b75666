//! Cycles and verdicts of small netlists, worked out by hand.

use crate::images::*;
use reference::{power_up, run, step, FirstFlow, Verdict};

/// Makes one step and gives the verdict, the net bytes and the new state.
fn stepped(image: &[u8], state: &[u8], row: &[u8], n: usize) -> (Verdict, Vec<u8>, Vec<u8>) {
    let mut state = state.to_vec();
    let mut nets = vec![77; n];
    let verdict = step(image, &mut state, row, &mut nets).unwrap();
    (verdict, nets, state)
}

// The netlist of the nine kinds, cycle by cycle from power-up. The register's
// start is 2, so it wakes with the byte 2:
//
// - Row 3: NOT 3 is 2, AND(3, 2) is 2, OR(1, 2) is 1, MUX(2, 2, 2) chooses a
//   and is marked because ta is 1, so it is 2; XOR(1, 2) is 3, OUT 3: a flow.
//   The register becomes net 6, which is 2.
// - Row 1: NOT 1 is 0, AND(1, 0) is 0, OR(1, 0) is 1, MUX(0, 0, 2) is 0,
//   XOR(1, 0) is 1, OUT 1: clear. The register becomes 0.
// - Row 2: NOT 2 is 3, AND(2, 3) is 2, OR(1, 2) is 1, MUX(3, 2, 0) is 3,
//   XOR(1, 3) is 2, OUT 2: a flow. The register becomes 3.
// - Row 0: NOT 0 is 1, AND(0, 1) is 0, OR(1, 0) is 1, MUX(1, 0, 3) chooses b,
//   which is 0, and is marked because a and b differ, so it is 2; XOR(1, 2) is
//   3, OUT 3: a flow. The register becomes 2.
#[test]
fn the_nine_kinds_by_steps() {
    let image = nine_kinds();
    let cycles = [
        (3, Verdict::Flow(8), [2, 3, 1, 2, 2, 1, 2, 3, 3], [2, 1, 0]),
        (1, Verdict::Clear, [2, 1, 1, 0, 0, 1, 0, 1, 1], [0, 0, 0]),
        (2, Verdict::Flow(8), [0, 2, 1, 3, 2, 1, 3, 2, 2], [3, 1, 0]),
        (0, Verdict::Flow(8), [3, 0, 1, 1, 0, 1, 2, 3, 3], [2, 1, 0]),
    ];
    let mut state = vec![77; 3];
    power_up(&image, &mut state).unwrap();
    assert_eq!(state, [2, 1, 0]);
    for (row, verdict, nets, after) in cycles {
        let got = stepped(&image, &state, &[row], 9);
        assert_eq!(got, (verdict, nets.to_vec(), after.to_vec()));
        state = got.2;
    }
}

// Nets 2 and 3 are free and protected OUTs of the marked net 0, net 4 a
// protected OUT of it as well. A free OUT is passed over, and net 3 is the
// lower of the other two. The flow carries the OUT's number, not its pin's.
#[test]
fn the_flow_is_at_the_lowest_protected_marked_out() {
    let image = counted(&[
        (INPUT, 0, 0, 0),
        (INPUT, 0, 0, 0),
        (OUT, 0, 0, 0),
        (OUT, 1, 1, 0),
        (OUT, 0, 1, 0),
    ]);
    let verdict = |row: [u8; 2]| stepped(&image, &[0, 0], &row, 5).0;
    assert_eq!(verdict([2, 2]), Verdict::Flow(3));
    assert_eq!(verdict([0, 3]), Verdict::Flow(3));
    assert_eq!(verdict([3, 1]), Verdict::Flow(4));
    assert_eq!(verdict([1, 1]), Verdict::Clear);
}

// A marked free OUT alone is no flow.
#[test]
fn a_free_out_gives_no_flow() {
    let image = counted(&[(INPUT, 0, 0, 0), (OUT, 0, 0, 0)]);
    let (verdict, nets, _) = stepped(&image, &[0, 0], &[3], 2);
    assert_eq!(verdict, Verdict::Clear);
    assert_eq!(nets, [3, 3]);
}

// With O = 0 every verdict is clear, whatever is marked.
#[test]
fn without_outputs_every_verdict_is_clear() {
    let (verdict, nets, _) = stepped(&two_inputs(), &[0, 0], &[2, 3], 2);
    assert_eq!(verdict, Verdict::Clear);
    assert_eq!(nets, [2, 3]);
    let answer = run(&two_inputs(), 2, &mut [0, 0], &[2, 3, 3, 3], &mut []);
    let expected = FirstFlow {
        cycle: 2,
        verdict: Verdict::Clear,
    };
    assert_eq!(answer, Ok(expected));
}

// An OUT passes its pin on: NOT of the OUT of 2 is 3, and the OUT of that is 3.
// A register takes an OUT's byte too.
#[test]
fn an_out_may_be_read_like_a_gate() {
    let image = counted(&[
        (INPUT, 0, 0, 0),
        (OUT, 0, 0, 0),
        (NOT, 1, 0, 0),
        (OUT, 2, 1, 0),
        (REG, 3, 0, 0),
    ]);
    let (verdict, nets, state) = stepped(&image, &[0, 0, 0], &[2], 5);
    assert_eq!((verdict, nets), (Verdict::Flow(3), vec![2, 2, 3, 3, 0]));
    assert_eq!(state, [3, 1, 0]);
}

// Without inputs a run takes no row bytes and still counts its cycles. The
// register starts at 1 and becomes NOT of itself, so the outputs are 1, 0, 1,
// and it is 0 after three cycles. From 3 the bytes are 3, 2, 3, the first flow is
// in cycle 0 at net 2, and it is 2 after three cycles.
#[test]
fn without_inputs_a_run_counts_its_cycles() {
    let image = counted(&[(REG, 1, 1, 0), (NOT, 0, 0, 0), (OUT, 0, 1, 0)]);
    let mut state = [77; 3];
    let mut outputs = [77; 3];
    power_up(&image, &mut state).unwrap();
    let answer = run(&image, 3, &mut state, &[], &mut outputs).unwrap();
    assert_eq!((answer.cycle, answer.verdict), (3, Verdict::Clear));
    assert_eq!(outputs, [1, 0, 1]);
    assert_eq!(state, [0, 0, 0]);
    state = [3, 1, 0];
    let answer = run(&image, 3, &mut state, &[], &mut outputs).unwrap();
    assert_eq!((answer.cycle, answer.verdict), (0, Verdict::Flow(2)));
    assert_eq!(outputs, [3, 2, 3]);
    assert_eq!(state, [2, 1, 0]);
}

// K = 0 changes nothing and is clear, with the cycle 0.
#[test]
fn a_run_of_no_cycles_changes_nothing() {
    let mut state = [3, 1, 0];
    let answer = run(&COUNTER, 0, &mut state, &[], &mut []).unwrap();
    assert_eq!((answer.cycle, answer.verdict), (0, Verdict::Clear));
    assert_eq!(state, [3, 1, 0]);
}

// Inputs, registers and outputs are each counted in net order. Nets 0 and 3 are
// REGs, 1 and 4 INPUTs, 2 and 5 OUTs. The REGs take nets 4 and 1.
#[test]
fn inputs_registers_and_outputs_are_counted_in_net_order() {
    let image = counted(&[
        (REG, 4, 0, 0),
        (INPUT, 0, 0, 0),
        (OUT, 0, 0, 0),
        (REG, 1, 1, 0),
        (INPUT, 0, 0, 0),
        (OUT, 3, 0, 0),
    ]);
    let (verdict, nets, state) = stepped(&image, &[2, 3, 2, 0], &[0, 1], 6);
    assert_eq!((verdict, nets), (Verdict::Clear, vec![2, 0, 2, 3, 1, 3]));
    assert_eq!(state, [1, 0, 0, 0]);
    let mut state = [2, 3, 2, 0];
    let mut outputs = [77; 4];
    // Cycle 1 shows the registers 1, 0 of cycle 0's clock, then takes 3 and 2.
    run(&image, 2, &mut state, &[0, 1, 2, 3], &mut outputs).unwrap();
    assert_eq!(outputs, [2, 3, 1, 0]);
    assert_eq!(state, [3, 2, 2, 0]);
}

// The first of two flows is answered: cycle 1 at net 3, although cycle 2 has a
// flow at net 1, which is lower.
#[test]
fn a_run_answers_with_its_first_flow() {
    let image = counted(&[
        (INPUT, 0, 0, 0),
        (OUT, 0, 1, 0),
        (INPUT, 0, 0, 0),
        (OUT, 2, 1, 0),
    ]);
    let rows = [0, 0, 0, 2, 3, 0];
    let mut outputs = [77; 6];
    let answer = run(&image, 3, &mut [0, 0], &rows, &mut outputs).unwrap();
    assert_eq!((answer.cycle, answer.verdict), (1, Verdict::Flow(3)));
    assert_eq!(outputs, rows);
}

// Net 256 is the OUT here, and its pin is net 255, so the high byte of a u16
// counts. Nets 1 to 255 are a chain of NOTs of net 0: net 255 is inverted an
// odd number of times, so it is NOT of the row byte 2, which is 3.
#[test]
fn net_numbers_above_255() {
    let mut nets = vec![(INPUT, 0, 0, 0)];
    for below in 0..255 {
        nets.push((NOT, below, 0, 0));
    }
    nets.push((OUT, 255, 1, 0));
    nets.push((NOT, 256, 0, 0));
    nets.push((OUT, 257, 0, 0));
    let (verdict, bytes, _) = stepped(&counted(&nets), &[0, 0], &[2], 259);
    assert_eq!(verdict, Verdict::Flow(256));
    assert_eq!(bytes[253..], [3, 2, 3, 3, 2, 2]);
}
