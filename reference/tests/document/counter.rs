//! The counter of document 01 by steps, by a run and doubled.
//!
//! The four cycles by hand, with nets 0 to 5 and the register after the clock:
//!
//! - Row 2, register 0: NOT 0 is 1, NOT 2 is 3, AND(1, 3) is 3, OUT 0. Then 3.
//! - Row 0, register 3: NOT 3 is 2, NOT 0 is 1, AND(2, 1) is 2, OUT 3. Then 2.
//! - Row 1, register 2: NOT 2 is 3, NOT 1 is 0, AND(3, 0) is 0, OUT 2. Then 0.
//! - Row 0, register 0: NOT 0 is 1, NOT 0 is 1, AND(1, 1) is 1, OUT 0. Then 1.
//!
//! Behind the register stands its count, which is 1 while it is 2 or 3.

use crate::images::*;
use reference::{double, doubled_size, power_up, run, step, FirstFlow, Verdict};

/// The net bytes of the four cycles, worked out above.
pub const CYCLES: [[u8; 6]; 4] = [
    [2, 0, 1, 3, 3, 0],
    [0, 3, 2, 1, 2, 3],
    [1, 2, 3, 0, 0, 2],
    [0, 0, 1, 1, 1, 0],
];

/// The states after the four clocks, worked out above.
pub const STATES: [[u8; 3]; 4] = [[3, 1, 0], [2, 1, 0], [0, 0, 0], [1, 0, 0]];

/// The verdicts of document 01's listing.
pub const VERDICTS: [Verdict; 4] = [
    Verdict::Clear,
    Verdict::Flow(5),
    Verdict::Flow(5),
    Verdict::Clear,
];

/// Runs the counter from power-up with its four rows: the answer, the output
/// bytes and the last state.
pub fn counter_run() -> (FirstFlow, [u8; 4], [u8; 3]) {
    let mut state = [77; 3];
    let mut outputs = [77; 4];
    power_up(&COUNTER, &mut state).unwrap();
    let answer = run(&COUNTER, 4, &mut state, &COUNTER_ROWS, &mut outputs).unwrap();
    (answer, outputs, state)
}

#[test]
fn the_counter_by_steps() {
    let mut state = [77; 3];
    assert_eq!(power_up(&COUNTER, &mut state), Ok(()));
    assert_eq!(state, [0, 0, 0]);
    for cycle in 0..4 {
        let mut nets = [77; 6];
        let row = [COUNTER_ROWS[cycle]];
        let verdict = step(&COUNTER, &mut state, &row, &mut nets);
        assert_eq!(verdict, Ok(VERDICTS[cycle]));
        assert_eq!(nets, CYCLES[cycle]);
        assert_eq!(state, STATES[cycle]);
    }
}

// The first flow in document 01's listing is in cycle 1 at net 5.
#[test]
fn the_counter_by_a_run() {
    let (answer, outputs, state) = counter_run();
    let expected = FirstFlow {
        cycle: 1,
        verdict: Verdict::Flow(5),
    };
    assert_eq!(answer, expected);
    assert_eq!(outputs, [0, 3, 2, 0]);
    assert_eq!(state, [1, 0, 0]);
}

// Runs of 0, 1, 2 and 3 cycles from power-up see the same cycles. The first
// flow is in cycle 1, so those of 0 and 1 cycles are clear with the cycle K.
#[test]
fn shorter_runs_of_the_counter() {
    let states = [[0, 0, 0], [3, 1, 0], [2, 1, 0], [0, 0, 0]];
    for k in 0..4 {
        let mut state = [0; 3];
        let mut outputs = vec![77; k];
        let answer = run(&COUNTER, k, &mut state, &COUNTER_ROWS[..k], &mut outputs).unwrap();
        let expected = if k < 2 {
            (k, Verdict::Clear)
        } else {
            (1, Verdict::Flow(5))
        };
        assert_eq!((answer.cycle, answer.verdict), expected);
        assert_eq!(outputs, [0, 3, 2][..k]);
        assert_eq!(state, states[k]);
    }
}

// A second run goes on from the register 3 that one cycle leaves, so its cycle 0
// is the cycle 1 above, with a flow.
#[test]
fn a_run_goes_on_from_the_state_it_is_lent() {
    let mut state = [3, 1, 0];
    let mut outputs = [77; 3];
    let answer = run(&COUNTER, 3, &mut state, &[0, 1, 0], &mut outputs).unwrap();
    assert_eq!(answer.cycle, 0);
    assert_eq!(answer.verdict, Verdict::Flow(5));
    assert_eq!(outputs, [3, 2, 0]);
    assert_eq!(state, [1, 0, 0]);
}

// Document 01 gives 16 nets and 120 bytes.
#[test]
fn the_doubled_counter_has_16_nets() {
    let size = doubled_size(&COUNTER).unwrap();
    assert_eq!((size.nets, size.bytes), (16, 120));
    assert_eq!(double(&COUNTER, &mut [77; 120]), Ok(()));
}

// The counter's rows v + 2t are 2, 0, 1, 0, so the doubled rows v, t are 0, 1,
// then 0, 0, then 1, 0, then 0, 0. The counter's output bytes 0, 3, 2, 0 become
// 0, 0, then 1, 1, then 0, 1, then 0, 0. Its last register 1 becomes 1, 0. All
// marks of the doubled run are 0, and so is its own count. Its OUTs are free, so it
// is clear.
#[test]
fn the_doubled_counter_pairs_with_the_counter() {
    let mut doubled = [77; 120];
    double(&COUNTER, &mut doubled).unwrap();
    let mut state = [77; 4];
    power_up(&doubled, &mut state).unwrap();
    assert_eq!(state, [0, 0, 0, 0]);
    let rows = [0, 1, 0, 0, 1, 0, 0, 0];
    let mut outputs = [77; 8];
    let answer = run(&doubled, 4, &mut state, &rows, &mut outputs).unwrap();
    assert_eq!(outputs, [0, 0, 1, 1, 0, 1, 0, 0]);
    assert_eq!(state, [1, 0, 0, 0]);
    assert_eq!(answer.cycle, 4);
    assert_eq!(answer.verdict, Verdict::Clear);
}

// The first row is 3 instead of 2, which agrees with it in the mark. By hand:
// NOT 3 is 2, AND(1, 2) is 2, OUT 0, register 2; then NOT 2 is 3, AND(3, 1) is 3,
// OUT 2, register 3; then NOT 3 is 2, AND(2, 0) is 0, OUT 3, register 0; then as
// above. The answer is the same, and the bytes agree with 0, 3, 2, 0.
#[test]
fn the_counter_with_the_other_untrusted_value() {
    let mut state = [0; 3];
    let mut outputs = [77; 4];
    let answer = run(&COUNTER, 4, &mut state, &[3, 0, 1, 0], &mut outputs).unwrap();
    assert_eq!(answer, counter_run().0);
    assert_eq!(outputs, [0, 2, 3, 0]);
    assert_eq!(state, [1, 0, 0]);
}
