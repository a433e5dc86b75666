//! Stand-ins that refuse a state with a count wrongly, in steps and in runs alike, or
//! at power-up. What they accept is worked out right.

use crate::parts::{bytes, bytes_mut, read};
use tests::coding::number_of;
use tests::{states, Calls, LIBRARY};
use tracker::{ffi, sizes, Sizes};

const ONE: u64 = 1 << 32;

/// A step or a run of an image whose sizes can be read.
struct Asked {
    sizes: Sizes,
    k: usize,
    /// The length of the rows.
    rows: usize,
    /// The state as it was lent.
    state: Vec<u8>,
}

/// Another way to refuse: what is done to a state of the right length before the
/// library looks at it, and the answer that stands for the library's.
struct Way {
    state: fn(&Asked, &mut [u8]),
    answer: fn(&Asked, u64) -> u64,
}

/// The way that changes the answer alone.
const fn answering(answer: fn(&Asked, u64) -> u64) -> Way {
    let state: fn(&Asked, &mut [u8]) = |_, _| {};
    Way { state, answer }
}

/// The way that sets the count of some states right.
const fn righting(state: fn(&Asked, &mut [u8])) -> Way {
    let answer: fn(&Asked, u64) -> u64 = |_, answer| answer;
    Way { state, answer }
}

const WAYS: [Way; 9] = [
    righting(|_, state| put_right(state)),
    righting(|asked, state| {
        if asked.k == 0 {
            put_right(state);
        }
    }),
    righting(|_, state| {
        let right = states::marked(states::registers(state));
        if states::count(state) % 256 == right % 256 {
            put_right(state);
        }
    }),
    answering(|asked, answer| match number_of(answer) {
        10 if asked.state.len() > 1 && !states::is_counted(&asked.state) => 20 * ONE,
        _ => answer,
    }),
    answering(|asked, answer| match number_of(answer) {
        11 if !states::is_counted(&asked.state) => 20 * ONE,
        _ => answer,
    }),
    answering(|asked, answer| match number_of(answer) {
        20 if asked.rows != asked.k * asked.sizes.inputs => 12 * ONE,
        _ => answer,
    }),
    answering(|asked, answer| {
        let bad = asked.state.iter().position(|byte| *byte > 3);
        match (number_of(answer), bad) {
            (0 | 12..=14 | 20, Some(index)) => 11 * ONE + index as u64,
            _ => answer,
        }
    }),
    answering(|asked, answer| match number_of(answer) {
        20 => 20 * ONE + asked.sizes.registers as u64,
        _ => answer,
    }),
    answering(|asked, answer| match number_of(answer) {
        20 if asked.sizes.registers == 0 => 10 * ONE,
        _ => answer,
    }),
];

/// Accepts every count.
pub const ANY_COUNT: Calls = by_way::<0>();

/// Accepts every count if there is no cycle.
pub const ANY_COUNT_OF_NO_CYCLES: Calls = by_way::<1>();

/// Looks at the low byte of the count alone.
pub const LOW_BYTE_ALONE: Calls = by_way::<2>();

/// Tries the last two bytes of a state before its length.
pub const BEFORE_10: Calls = by_way::<3>();

/// Tries the count before the bytes of the registers.
pub const BEFORE_11: Calls = by_way::<4>();

/// Tries the count after the length of the rows.
pub const AFTER_12: Calls = by_way::<5>();

/// Tries the bytes of the count as those of registers.
pub const BYTES_ABOVE_3: Calls = by_way::<6>();

/// Gives the index of the count for its place.
pub const WITH_A_PLACE: Calls = by_way::<7>();

/// Takes a state without registers for one of a wrong length if its count is wrong.
pub const LENGTH_OF_NO_REGISTERS: Calls = by_way::<8>();

const fn by_way<const INDEX: usize>() -> Calls {
    Calls {
        step: step::<INDEX>,
        run: run::<INDEX>,
        ..LIBRARY
    }
}

/// Sets the count of a state right.
fn put_right(state: &mut [u8]) {
    let right = states::marked(states::registers(state));
    states::put_count(state, right);
}

/// The answer to a call by a way. The call is made on copies of the state and of the
/// buffer that it fills, which take their place if it is accepted.
fn answered<const INDEX: usize>(
    asked: &Asked,
    state: &mut [u8],
    filled: &mut [u8],
    call: impl FnOnce(&mut [u8], &mut [u8]) -> u64,
) -> u64 {
    let (mut own, mut own_filled) = (state.to_vec(), filled.to_vec());
    if own.len() == states::length(asked.sizes.registers) {
        (WAYS[INDEX].state)(asked, &mut own);
    }
    let answer = (WAYS[INDEX].answer)(asked, call(&mut own, &mut own_filled));
    if number_of(answer) == 0 {
        state.copy_from_slice(&own);
        filled.copy_from_slice(&own_filled);
    }
    answer
}

#[rustfmt::skip]
unsafe extern "C" fn step<const INDEX: usize>(
    image: *const u8, il: usize, state: *mut u8, sl: usize,
    row: *const u8, rl: usize, nets: *mut u8, nl: usize,
) -> u64 {
    let (image, row) = (bytes(image, il), bytes(row, rl));
    let (state, nets) = (bytes_mut(state, sl), bytes_mut(nets, nl));
    match sizes(image) {
        None => ffi::step(image, state, row, nets),
        Some(sizes) => {
            let asked = Asked { sizes, k: 1, rows: rl, state: state.to_vec() };
            answered::<INDEX>(&asked, state, nets, |state, nets| ffi::step(image, state, row, nets))
        }
    }
}

#[rustfmt::skip]
unsafe extern "C" fn run<const INDEX: usize>(
    image: *const u8, il: usize, k: usize, state: *mut u8, sl: usize,
    rows: *const u8, rl: usize, outputs: *mut u8, ol: usize,
) -> u64 {
    let (image, rows) = (bytes(image, il), bytes(rows, rl));
    let (state, outputs) = (bytes_mut(state, sl), bytes_mut(outputs, ol));
    match sizes(image) {
        None => ffi::run(image, k, state, rows, outputs),
        Some(sizes) => {
            let asked = Asked { sizes, k, rows: rl, state: state.to_vec() };
            answered::<INDEX>(&asked, state, outputs, |state, outputs| {
                ffi::run(image, k, state, rows, outputs)
            })
        }
    }
}

/// Sets a wrong count right, and refuses it all the same.
pub const REFUSED_WRITES: Calls = Calls {
    step: step_refused_writes,
    ..LIBRARY
};

#[rustfmt::skip]
unsafe extern "C" fn step_refused_writes(
    image: *const u8, il: usize, state: *mut u8, sl: usize,
    row: *const u8, rl: usize, nets: *mut u8, nl: usize,
) -> u64 {
    let answer = (LIBRARY.step)(image, il, state, sl, row, rl, nets, nl);
    if number_of(answer) == 20 {
        put_right(bytes_mut(state, sl));
    }
    answer
}

/// Looks at the count that a state held before power-up.
pub const POWER_UP_LOOKS: Calls = Calls {
    power_up: power_up_looks,
    ..LIBRARY
};

#[rustfmt::skip]
unsafe extern "C" fn power_up_looks(image: *const u8, il: usize, state: *mut u8, sl: usize) -> u64 {
    let before = bytes(state, sl).to_vec();
    let answer = (LIBRARY.power_up)(image, il, state, sl);
    if answer == 0 && !states::is_counted(&before) {
        bytes_mut(state, sl).copy_from_slice(&before);
        return 20 * ONE;
    }
    answer
}

/// Powers up registers without room for their count.
pub const REGISTERS_ALONE: Calls = Calls {
    power_up: power_up_alone,
    ..LIBRARY
};

#[rustfmt::skip]
unsafe extern "C" fn power_up_alone(image: *const u8, il: usize, state: *mut u8, sl: usize) -> u64 {
    let answer = (LIBRARY.power_up)(image, il, state, sl);
    if number_of(answer) == 10 && sl == read(image, il).sizes().registers {
        return (LIBRARY.static_power_up)(image, il, state, sl);
    }
    answer
}
