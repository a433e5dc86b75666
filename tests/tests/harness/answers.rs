//! Stand-ins with wrong answers. The bytes that they leave are right.

use crate::parts::{bytes, library_run, read};
use tests::coding::{number_of, CLEAR};
use tests::{Calls, LIBRARY};
use tracker::kinds::OUT;

const ONE: u64 = 1 << 32;

/// Accepts an image whose I, R or O is wrong.
pub const ACCEPTS_WRONG_COUNTS: Calls = Calls {
    check: check_without_8,
    ..LIBRARY
};

extern "C" fn check_without_8(image: *const u8, length: usize) -> u64 {
    let answer = unsafe { (LIBRARY.check)(image, length) };
    if number_of(answer) == 8 {
        0
    } else {
        answer
    }
}

/// Answers with the net behind the one that is bad.
pub const NEXT_PLACE: Calls = Calls {
    check: check_next_place,
    ..LIBRARY
};

extern "C" fn check_next_place(image: *const u8, length: usize) -> u64 {
    let answer = unsafe { (LIBRARY.check)(image, length) };
    match number_of(answer) {
        4..=7 => answer + 1,
        _ => answer,
    }
}

/// Counts the index of a bad row byte from the start of its cycle.
pub const PLACE_IN_ITS_ROW: Calls = Calls {
    run: run_place_in_its_row,
    ..LIBRARY
};

#[rustfmt::skip]
unsafe extern "C" fn run_place_in_its_row(
    image: *const u8, il: usize, k: usize, state: *mut u8, sl: usize,
    rows: *const u8, rl: usize, outputs: *mut u8, ol: usize,
) -> u64 {
    let answer = (LIBRARY.run)(image, il, k, state, sl, rows, rl, outputs, ol);
    match number_of(answer) {
        13 => 13 * ONE + answer % ONE % read(image, il).sizes().inputs as u64,
        _ => answer,
    }
}

/// Answers with the highest-numbered protected OUT that is marked.
pub const HIGHEST_FLOW: Calls = Calls {
    step: step_highest_flow,
    ..LIBRARY
};

#[rustfmt::skip]
unsafe extern "C" fn step_highest_flow(
    image: *const u8, il: usize, state: *mut u8, sl: usize,
    row: *const u8, rl: usize, nets: *mut u8, nl: usize,
) -> u64 {
    let answer = (LIBRARY.step)(image, il, state, sl, row, rl, nets, nl);
    if number_of(answer) != 0 {
        return answer;
    }
    let (image, nets) = (read(image, il), bytes(nets, nl));
    let flows = |net: &usize| {
        image.kinds()[*net] == OUT && image.operand(*net, 1) == 1 && nets[*net] >= 2
    };
    (0..nl).rev().find(flows).map_or(CLEAR, |net| net as u64)
}

/// Says clear of every run.
pub const ALWAYS_CLEAR: Calls = Calls {
    run: run_always_clear::<false>,
    ..LIBRARY
};

/// Says clear of every static run.
pub const ALWAYS_CLEAR_STATIC: Calls = Calls {
    static_run: run_always_clear::<true>,
    ..LIBRARY
};

#[rustfmt::skip]
unsafe extern "C" fn run_always_clear<const STATIC: bool>(
    image: *const u8, il: usize, k: usize, state: *mut u8, sl: usize,
    rows: *const u8, rl: usize, outputs: *mut u8, ol: usize,
) -> u64 {
    let answer = library_run::<STATIC>()(image, il, k, state, sl, rows, rl, outputs, ol);
    match number_of(answer) {
        0 => k as u64 * 65_536 + CLEAR,
        _ => answer,
    }
}

/// Answers 0 for a clear step, as for a call that is done.
pub const CLEAR_IS_0: Calls = Calls {
    step: step_clear_is_0,
    ..LIBRARY
};

#[rustfmt::skip]
unsafe extern "C" fn step_clear_is_0(
    image: *const u8, il: usize, state: *mut u8, sl: usize,
    row: *const u8, rl: usize, nets: *mut u8, nl: usize,
) -> u64 {
    match (LIBRARY.step)(image, il, state, sl, row, rl, nets, nl) {
        CLEAR => 0,
        answer => answer,
    }
}

/// Turns every image back in every call.
pub const TURNS_ALL_BACK: Calls = Calls {
    check: no_check,
    power_up: no_power_up,
    step: no_step,
    run: no_run,
    doubled_size: no_check,
    doubled_kind: no_kind,
    double: no_power_up,
    static_power_up: no_power_up,
    static_run: no_run,
    page: no_page,
};

extern "C" fn no_check(_: *const u8, _: usize) -> u64 {
    3 * ONE
}

extern "C" fn no_kind(_: *const u8, _: usize, _: usize) -> u64 {
    3 * ONE
}

extern "C" fn no_power_up(_: *const u8, _: usize, _: *mut u8, _: usize) -> u64 {
    3 * ONE
}

#[rustfmt::skip]
extern "C" fn no_step(
    _: *const u8, _: usize, _: *mut u8, _: usize,
    _: *const u8, _: usize, _: *mut u8, _: usize,
) -> u64 {
    3 * ONE
}

#[rustfmt::skip]
extern "C" fn no_page(
    _: *const u8, _: usize, _: usize, _: *const u8, _: usize, _: *mut u8, _: usize,
) -> u64 {
    3 * ONE
}

#[rustfmt::skip]
extern "C" fn no_run(
    _: *const u8, _: usize, _: usize, _: *mut u8, _: usize,
    _: *const u8, _: usize, _: *mut u8, _: usize,
) -> u64 {
    3 * ONE
}
