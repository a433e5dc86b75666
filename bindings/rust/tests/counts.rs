//! The count of marked registers at the end of a state: its length, its bytes, and
//! the refusals. No refused call changes a lent byte.

use tracker::kinds::{INPUT, INVERTED, REG};
use tracker::{encode, marked_registers, power_up, run, state_length, step};
use tracker::{Net, Reason, Refusal};

/// A chain of three registers behind an INPUT, with starts 2, 1 and 2, of which the
/// last inverts.
const CHAIN: [Net; 4] = [
    Net::new(INPUT, 0, 0, 0),
    Net::new(REG, 0, 2, 0),
    Net::new(REG, 1, 1, 0),
    Net::new(REG, INVERTED + 2, 2, 0),
];

/// This many registers behind an INPUT, each taking its byte, with this start.
fn many(registers: usize, start: u16) -> Vec<u8> {
    let mut nets = vec![Net::new(INPUT, 0, 0, 0)];
    nets.resize(1 + registers, Net::new(REG, 0, start, 0));
    encode(&nets)
}

#[test]
fn lengths() {
    let lengths = [0, 1, 300, 8_192].map(state_length);
    assert_eq!(lengths, [2, 3, 302, 8_194]);
}

// 258 is 2 + 256 × 1, and 65,535 is 255 + 256 × 255.
#[test]
fn the_count_is_the_last_two_bytes() {
    assert_eq!(marked_registers(&[]), None);
    assert_eq!(marked_registers(&[2]), None);
    assert_eq!(marked_registers(&[2, 1]), Some(258));
    assert_eq!(marked_registers(&[3, 3, 3, 2, 0]), Some(2));
    assert_eq!(marked_registers(&[0, 255, 255]), Some(65_535));
}

// Each clock moves the bytes on by one place, the last of them inverted, and puts
// the row's byte before them.
#[test]
fn power_up_sets_it_and_steps_keep_it() {
    let (image, mut state) = (encode(&CHAIN), [255; 5]);
    assert_eq!(power_up(&image, &mut state), Ok(()));
    assert_eq!(state, [2, 1, 2, 2, 0]);
    for (row, after) in [
        (2, [2, 2, 0, 2, 0]),
        (3, [3, 2, 3, 3, 0]),
        (0, [0, 3, 3, 2, 0]),
        (1, [1, 0, 2, 1, 0]),
        (1, [1, 1, 1, 0, 0]),
    ] {
        let verdict = step(&image, &mut state, &[row], &mut [255; 4]);
        assert!(verdict.unwrap().is_clear());
        assert_eq!(state, after);
    }
}

// A run leaves the count of its last clock. K = 0 leaves the state as it is.
#[test]
fn runs_keep_it() {
    let image = encode(&CHAIN);
    for (k, after) in [
        (0, [2, 1, 2, 2, 0]),
        (2, [3, 2, 3, 3, 0]),
        (5, [1, 1, 1, 0, 0]),
    ] {
        let mut state = [2, 1, 2, 2, 0];
        let answer = run(&image, k, &mut state, &[2, 3, 0, 1, 1][..k], &mut []);
        assert!(answer.unwrap().verdict.is_clear());
        assert_eq!(state, after);
    }
}

// All registers are marked, and then none, and then all again.
#[test]
fn the_low_byte_comes_first() {
    for (registers, bytes) in [(255, [255, 0]), (256, [0, 1]), (8_191, [255, 31])] {
        let (image, mut state) = (many(registers, 2), vec![255; registers + 2]);
        assert_eq!(power_up(&image, &mut state), Ok(()));
        assert_eq!(state[registers..], bytes);
        for (row, count) in [(1, [0, 0]), (3, bytes)] {
            let answer = run(&image, 1, &mut state, &[row], &mut []);
            assert!(answer.unwrap().verdict.is_clear());
            assert_eq!(state[..registers], vec![row; registers]);
            assert_eq!(state[registers..], count);
        }
    }
}

/// The answers of a step and a run of the chain from a state, on these row bytes,
/// which must be the same. They must change no byte.
fn refused(state: &[u8], row: &[u8]) -> Refusal {
    let (image, mut own, mut nets) = (encode(&CHAIN), state.to_vec(), [7; 4]);
    let answer = step(&image, &mut own, row, &mut nets).unwrap_err();
    assert_eq!((&own[..], nets), (state, [7; 4]));
    let other = run(&image, 1, &mut own, row, &mut []).unwrap_err();
    assert_eq!((&own[..], other), (state, answer));
    answer
}

// Two registers of 3, 1 and 2 are marked. A count with a byte above 3 is a wrong one,
// and not a bad byte. 512 is that of the right bytes in the wrong order.
#[test]
fn every_other_count_is_refused() {
    let (reason, place) = (Reason::StateCount, 0);
    for count in [0, 1, 3, 4, 255, 258, 512, 65_535_u16] {
        let [low, high] = count.to_le_bytes();
        assert_eq!(
            refused(&[3, 1, 2, low, high], &[0]),
            Refusal { reason, place }
        );
    }
}

// Each state has the fault that it is refused for and those behind it, and there is no
// row.
#[test]
fn refusals_come_in_their_order() {
    let at = |reason, place| Refusal { reason, place };
    assert_eq!(refused(&[3, 1, 4], &[]), at(Reason::StateLength, 0));
    assert_eq!(refused(&[3, 1, 4, 9], &[]), at(Reason::StateLength, 0));
    assert_eq!(refused(&[3; 6], &[]), at(Reason::StateLength, 0));
    assert_eq!(refused(&[3, 1, 4, 9, 9], &[]), at(Reason::StateByte, 2));
    assert_eq!(refused(&[3, 1, 2, 9, 9], &[]), at(Reason::StateCount, 0));
    assert_eq!(refused(&[3, 1, 2, 2, 0], &[]), at(Reason::RowLength, 0));
}

// K = 0 refuses a wrong count too. A netlist without registers has the count 0.
#[test]
fn a_wrong_count_of_no_cycles_and_of_no_registers() {
    let refusal = Err(Refusal {
        reason: Reason::StateCount,
        place: 0,
    });
    let mut state = [3, 1, 2, 1, 0];
    assert_eq!(run(&encode(&CHAIN), 0, &mut state, &[], &mut []), refusal);
    assert_eq!(state, [3, 1, 2, 1, 0]);
    let image = encode(&CHAIN[..1]);
    assert_eq!(run(&image, 1, &mut [1, 0], &[0], &mut []), refusal);
    assert!(run(&image, 1, &mut [0, 0], &[0], &mut []).is_ok());
}
