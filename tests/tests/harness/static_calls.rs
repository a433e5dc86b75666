//! Stand-ins that get the refusals of static calls wrong, or their starts.

use crate::parts::{bytes, bytes_mut, read};
use tests::coding::{number_of, place_of};
use tests::{states, Calls, LIBRARY};
use tracker::codes::is_code;

const ONE: u64 = 1 << 32;

/// Powers up as a power-up does, so that a register without a start has 2.
pub const POWERS_UP_AS_RUNS: Calls = Calls {
    static_power_up: powers_up_as_runs,
    ..LIBRARY
};

#[rustfmt::skip]
unsafe extern "C" fn powers_up_as_runs(
    image: *const u8, il: usize, state: *mut u8, sl: usize,
) -> u64 {
    let mut own = states::of(bytes(state, sl));
    let answer = (LIBRARY.power_up)(image, il, own.as_mut_ptr(), own.len());
    bytes_mut(state, sl).copy_from_slice(states::registers(&own));
    answer
}

/// Runs as a run does, so that 4 and 6 are refused.
pub const RUNS_AS_RUNS: Calls = Calls {
    static_run: runs_as_runs,
    ..LIBRARY
};

#[rustfmt::skip]
unsafe extern "C" fn runs_as_runs(
    image: *const u8, il: usize, k: usize, state: *mut u8, sl: usize,
    rows: *const u8, rl: usize, outputs: *mut u8, ol: usize,
) -> u64 {
    let mut own = states::of(bytes(state, sl));
    let answer = (LIBRARY.run)(
        image, il, k, own.as_mut_ptr(), own.len(), rows, rl, outputs, ol,
    );
    bytes_mut(state, sl).copy_from_slice(states::registers(&own));
    answer
}

/// Asks for a state with a count, as those of other calls have.
pub const TAKES_A_COUNT: Calls = Calls {
    static_power_up: LIBRARY.power_up,
    static_run: run_takes_a_count,
    ..LIBRARY
};

#[rustfmt::skip]
unsafe extern "C" fn run_takes_a_count(
    image: *const u8, il: usize, k: usize, state: *mut u8, sl: usize,
    rows: *const u8, rl: usize, outputs: *mut u8, ol: usize,
) -> u64 {
    if sl < states::length(0) {
        return 10 * ONE;
    }
    let registers = states::registers(bytes(state, sl)).len();
    (LIBRARY.static_run)(image, il, k, state, registers, rows, rl, outputs, ol)
}

/// Takes 5 for 4.
pub const ACCEPTS_5: Calls = Calls {
    static_run: run_accepts_5,
    ..LIBRARY
};

#[rustfmt::skip]
unsafe extern "C" fn run_accepts_5(
    image: *const u8, il: usize, k: usize, state: *mut u8, sl: usize,
    rows: *const u8, rl: usize, outputs: *mut u8, ol: usize,
) -> u64 {
    let without_5 = |bytes: &[u8]| -> Vec<u8> {
        bytes.iter().map(|byte| if *byte == 5 { 4 } else { *byte }).collect()
    };
    let mut own = without_5(bytes(state, sl));
    let rows = without_5(bytes(rows, rl));
    let answer = (LIBRARY.static_run)(
        image, il, k, own.as_mut_ptr(), sl, rows.as_ptr(), rl, outputs, ol,
    );
    if number_of(answer) == 0 {
        bytes_mut(state, sl).copy_from_slice(&own);
    }
    answer
}

/// Tries the bytes of the state before its length.
pub const BYTES_BEFORE_10: Calls = Calls {
    static_run: run_bytes_before_10,
    ..LIBRARY
};

#[rustfmt::skip]
unsafe extern "C" fn run_bytes_before_10(
    image: *const u8, il: usize, k: usize, state: *mut u8, sl: usize,
    rows: *const u8, rl: usize, outputs: *mut u8, ol: usize,
) -> u64 {
    let answer = (LIBRARY.static_run)(image, il, k, state, sl, rows, rl, outputs, ol);
    match (number_of(answer), first_bad(bytes(state, sl))) {
        (10, Some(index)) => 18 * ONE + index as u64,
        _ => answer,
    }
}

/// Tries the bytes of the rows before their length.
pub const BYTES_BEFORE_12: Calls = Calls {
    static_run: run_bytes_before_12,
    ..LIBRARY
};

#[rustfmt::skip]
unsafe extern "C" fn run_bytes_before_12(
    image: *const u8, il: usize, k: usize, state: *mut u8, sl: usize,
    rows: *const u8, rl: usize, outputs: *mut u8, ol: usize,
) -> u64 {
    let answer = (LIBRARY.static_run)(image, il, k, state, sl, rows, rl, outputs, ol);
    match (number_of(answer), first_bad(bytes(rows, rl))) {
        (12, Some(index)) => 18 * ONE + index as u64,
        _ => answer,
    }
}

/// Gives the numbers of a run, 11 and 13, for 18.
pub const NUMBERS_OF_RUNS: Calls = Calls {
    static_run: run_numbers_of_runs,
    ..LIBRARY
};

#[rustfmt::skip]
unsafe extern "C" fn run_numbers_of_runs(
    image: *const u8, il: usize, k: usize, state: *mut u8, sl: usize,
    rows: *const u8, rl: usize, outputs: *mut u8, ol: usize,
) -> u64 {
    let answer = (LIBRARY.static_run)(image, il, k, state, sl, rows, rl, outputs, ol);
    let number = if first_bad(bytes(state, sl)).is_some() { 11 } else { 13 };
    match number_of(answer) {
        18 => number * ONE + answer % ONE,
        _ => answer,
    }
}

/// Counts the index of a bad row byte from the start of its cycle.
pub const PLACE_IN_ITS_ROW: Calls = Calls {
    static_run: run_place_in_its_row,
    ..LIBRARY
};

#[rustfmt::skip]
unsafe extern "C" fn run_place_in_its_row(
    image: *const u8, il: usize, k: usize, state: *mut u8, sl: usize,
    rows: *const u8, rl: usize, outputs: *mut u8, ol: usize,
) -> u64 {
    let answer = (LIBRARY.static_run)(image, il, k, state, sl, rows, rl, outputs, ol);
    if number_of(answer) != 18 || first_bad(bytes(state, sl)).is_some() {
        return answer;
    }
    let inputs = read(image, il).sizes().inputs;
    18 * ONE + (place_of(answer) % inputs) as u64
}

/// The index of the first byte that is no code.
fn first_bad(bytes: &[u8]) -> Option<usize> {
    bytes.iter().position(|byte| !is_code(*byte))
}
