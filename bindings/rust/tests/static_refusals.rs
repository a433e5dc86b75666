//! The refusals of static power-up and static run. No refused call changes a lent
//! byte.

use tracker::codes::{UNKNOWN_TRUSTED, UNKNOWN_UNTRUSTED};
use tracker::kinds::{AND, INPUT, NOT, OUT, REG};
use tracker::{encode, run, static_power_up, static_run, step, Net, Reason, Refusal};

/// 0 INPUT; 1 REG(4, start 0); 2 NOT 1; 3 NOT 0; 4 AND(2, 3); 5 OUT 1,
/// protected.
const COUNTER: [Net; 6] = [
    Net::new(INPUT, 0, 0, 0),
    Net::new(REG, 4, 0, 0),
    Net::new(NOT, 1, 0, 0),
    Net::new(NOT, 0, 0, 0),
    Net::new(AND, 2, 3, 0),
    Net::new(OUT, 1, 1, 0),
];

/// The answer of a static run of the counter. It must change no byte.
fn refused(k: usize, state: &[u8], rows: &[u8], outputs: &[u8]) -> Refusal {
    let (mut own_state, mut own_outputs) = (state.to_vec(), outputs.to_vec());
    let answer = static_run(&encode(&COUNTER), k, &mut own_state, rows, &mut own_outputs);
    assert_eq!((&own_state[..], &own_outputs[..]), (state, outputs));
    answer.unwrap_err()
}

// Each call has the fault that it turns back for and those behind it.
#[test]
fn refusals_come_in_their_order() {
    let at = |reason, place| Refusal { reason, place };
    let (bad, good) = ([5, 7], [4, 6]);
    assert_eq!(
        refused(4_097, &bad, &bad, &[]),
        at(Reason::TooManyCycles, 0)
    );
    assert_eq!(refused(2, &bad, &[5], &[]), at(Reason::StateLength, 0));
    assert_eq!(refused(2, &[7], &[5], &[]), at(Reason::StaticByte, 0));
    assert_eq!(refused(2, &[6], &[5], &[]), at(Reason::RowLength, 0));
    assert_eq!(refused(2, &[6], &[6, 255], &[]), at(Reason::StaticByte, 1));
    assert_eq!(refused(2, &[6], &good, &[]), at(Reason::BufferLength, 0));
    assert_eq!(refused(0, &[5], &[], &[]), at(Reason::StaticByte, 0));
}

#[test]
fn a_static_power_up_asks_for_the_length_of_the_state() {
    let mut state = [7, 7];
    let (reason, place) = (Reason::StateLength, 0);
    let answer = static_power_up(&encode(&COUNTER), &mut state);
    assert_eq!((answer, state), (Err(Refusal { reason, place }), [7, 7]));
}

// With the count that a run takes, the state is too long, also if the count is right.
#[test]
fn static_calls_take_no_count() {
    let (reason, place) = (Reason::StateLength, 0);
    for state in [[0, 0, 0], [3, 1, 0]] {
        assert_eq!(refused(1, &state, &[0], &[7]), Refusal { reason, place });
        let mut lent = state;
        let answer = static_power_up(&encode(&COUNTER), &mut lent);
        assert_eq!((answer, lent), (Err(Refusal { reason, place }), state));
    }
}

// A state with an unknown bit is one for static runs alone.
#[test]
fn steps_and_runs_refuse_unknown_codes() {
    let image = encode(&COUNTER);
    let mut outputs = [7];
    for code in [UNKNOWN_TRUSTED, UNKNOWN_UNTRUSTED] {
        let (reason, place) = (Reason::StateByte, 0);
        let answer = run(&image, 1, &mut [code, 0, 0], &[0], &mut outputs);
        assert_eq!(answer, Err(Refusal { reason, place }));
        let reason = Reason::RowByte;
        let answer = step(&image, &mut [0; 3], &[code], &mut [7; 6]);
        assert_eq!(answer, Err(Refusal { reason, place }));
    }
    assert_eq!(outputs, [7]);
}
