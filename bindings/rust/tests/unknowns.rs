//! Static runs: the counter, worked out by hand, and what they say of the runs that
//! fill their unknowns.

use tracker::codes::{self, UNKNOWN_TRUSTED, UNKNOWN_UNTRUSTED};
use tracker::kinds::{AND, INPUT, NOT, OUT, REG};
use tracker::{encode, power_up, run, static_power_up, static_run};
use tracker::{FirstFlow, Net, Verdict};

/// 0 INPUT; 1 REG(4, start 0); 2 NOT 1; 3 NOT 0; 4 AND(2, 3); 5 OUT 1,
/// protected.
const COUNTER: [Net; 6] = [
    Net::new(INPUT, 0, 0, 0),
    Net::new(REG, 4, 0, 0),
    Net::new(NOT, 1, 0, 0),
    Net::new(NOT, 0, 0, 0),
    Net::new(AND, 2, 3, 0),
    Net::new(OUT, 1, 1, 0),
];

/// All codes.
const CODES: [u8; 6] = [0, 1, 2, 3, 4, 6];

#[test]
fn codes_have_values_and_marks() {
    assert_eq!((UNKNOWN_TRUSTED, UNKNOWN_UNTRUSTED), (4, 6));
    let values = CODES.map(codes::value);
    assert_eq!(values, [Some(0), Some(1), Some(0), Some(1), None, None]);
    let marks = CODES.map(codes::is_marked);
    assert_eq!(marks, [false, false, true, true, false, true]);
    for byte in 0..=255 {
        assert_eq!(codes::is_code(byte), CODES.contains(&byte), "{byte}");
    }
}

/// The counter runs from static power-up on these rows. Gives the answer, the
/// outputs and the state left.
fn counted(rows: [u8; 4]) -> (FirstFlow, [u8; 4], u8) {
    let image = encode(&COUNTER);
    let (mut state, mut outputs) = ([255], [255; 4]);
    assert_eq!(static_power_up(&image, &mut state), Ok(()));
    assert_eq!(state, [0]);
    let answer = static_run(&image, 4, &mut state, &rows, &mut outputs);
    (answer.unwrap(), outputs, state[0])
}

fn first_flow(cycle: usize, verdict: Verdict) -> FirstFlow {
    FirstFlow { cycle, verdict }
}

// The register starts with 0, so that the AND in cycle 0 is NOT of the row: 4 for
// 4. From then on the AND of 4 and 4 is 4. With 6 it is 6, which reaches the OUT in
// cycle 1. A row of 1 clears the AND: 0, unmarked, whatever the register has.
#[test]
fn the_counter_on_unknown_rows() {
    let flow = first_flow(1, Verdict::Flow { net: 5 });
    let clear = first_flow(4, Verdict::Clear);
    assert_eq!(counted([4; 4]), (clear, [0, 4, 4, 4], 4));
    assert_eq!(counted([6; 4]), (flow, [0, 6, 6, 6], 6));
    assert_eq!(counted([6, 1, 4, 1]), (flow, [0, 6, 0, 4], 0));
}

/// All rows of three bytes that fill these codes.
fn fillings(codes: [u8; 3]) -> Vec<[u8; 3]> {
    let bits = (0..8).map(|number| [number % 2, number / 2 % 2, number / 4]);
    let filled = bits.map(|bits| {
        let mut row = codes;
        for (byte, bit) in row.iter_mut().zip(bits) {
            match *byte {
                UNKNOWN_TRUSTED => *byte = bit,
                UNKNOWN_UNTRUSTED => *byte = 2 + bit,
                _ => {}
            }
        }
        row
    });
    filled.collect()
}

// Each of the runs has the known values of the static run, and no mark where that
// has none. It is clear where that is.
#[test]
fn a_static_run_speaks_of_the_runs_that_fill_it() {
    let image = encode(&COUNTER);
    for codes in [[4, 4, 4], [1, 4, 4], [4, 6, 1], [0, 1, 6], [3, 4, 6]] {
        let (mut state, mut outputs) = ([0], [255; 3]);
        let answer = static_run(&image, 3, &mut state, &codes, &mut outputs);
        for rows in fillings(codes) {
            let (mut filled_state, mut filled) = ([0; 3], [255; 3]);
            let concrete = run(&image, 3, &mut filled_state, &rows, &mut filled);
            let is_clear = answer.unwrap().verdict.is_clear();
            assert!(!is_clear || concrete.unwrap().verdict.is_clear());
            let codes = outputs.iter().chain(&state);
            for (code, byte) in codes.zip(filled.iter().chain(&filled_state[..1])) {
                let value = codes::value(*code);
                assert!(value.is_none() || value == codes::value(*byte));
                assert!(codes::is_marked(*code) || !codes::is_marked(*byte));
            }
        }
    }
}

#[test]
fn only_a_register_without_a_start_wakes_unknown() {
    let image = encode(&[0, 1, 2].map(|start| Net::new(REG, 0, start, 0)));
    let (mut state, mut powered) = ([255; 3], [255; 5]);
    assert_eq!(static_power_up(&image, &mut state), Ok(()));
    assert_eq!(power_up(&image, &mut powered), Ok(()));
    assert_eq!((state, powered), ([0, 1, 6], [0, 1, 2, 1, 0]));
}

// The counter's four rows: without unknowns it is the run, but for the count.
#[test]
fn without_unknowns_it_is_the_run() {
    let (image, rows) = (encode(&COUNTER), [2, 0, 1, 0]);
    let (mut state, mut outputs) = ([0; 3], [255; 4]);
    let answer = run(&image, 4, &mut state, &rows, &mut outputs);
    assert_eq!(counted(rows), (answer.unwrap(), outputs, state[0]));
    assert_eq!(outputs, [0, 3, 2, 0]);
}
