//! Stand-ins that leave wrong bytes, in the buffers or beside them. Their
//! answers are right.

use crate::parts::{bytes_mut, change_registers, library_run};
use tests::coding::number_of;
use tests::{Calls, LIBRARY};

/// Writes the byte before the state.
pub const WRITES_BEFORE: Calls = Calls {
    power_up: power_up_before,
    ..LIBRARY
};

unsafe extern "C" fn power_up_before(i: *const u8, il: usize, state: *mut u8, sl: usize) -> u64 {
    *state.sub(1) ^= 1;
    (LIBRARY.power_up)(i, il, state, sl)
}

/// Writes the byte behind the outputs.
pub const WRITES_BEHIND: Calls = Calls {
    run: run_behind,
    ..LIBRARY
};

#[rustfmt::skip]
unsafe extern "C" fn run_behind(
    image: *const u8, il: usize, k: usize, state: *mut u8, sl: usize,
    rows: *const u8, rl: usize, outputs: *mut u8, ol: usize,
) -> u64 {
    *outputs.add(ol) ^= 128;
    (LIBRARY.run)(image, il, k, state, sl, rows, rl, outputs, ol)
}

/// Writes into the image that it only reads, and gives the right answer.
pub const WRITES_THE_IMAGE: Calls = Calls {
    check: check_writes,
    ..LIBRARY
};

unsafe extern "C" fn check_writes(image: *const u8, length: usize) -> u64 {
    let answer = (LIBRARY.check)(image, length);
    if let Some(byte) = bytes_mut(image as *mut u8, length).last_mut() {
        *byte ^= 1;
    }
    answer
}

/// Fills the net buffer and gets the mark of the last net wrong.
pub const ONE_NET_WRONG: Calls = Calls {
    step: step_one_wrong,
    ..LIBRARY
};

#[rustfmt::skip]
unsafe extern "C" fn step_one_wrong(
    image: *const u8, il: usize, state: *mut u8, sl: usize,
    row: *const u8, rl: usize, nets: *mut u8, nl: usize,
) -> u64 {
    let answer = (LIBRARY.step)(image, il, state, sl, row, rl, nets, nl);
    if number_of(answer) == 0 {
        bytes_mut(nets, nl)[nl - 1] ^= 2;
    }
    answer
}

/// Leaves the net buffer as it was.
pub const NETS_UNTOUCHED: Calls = Calls {
    step: step_untouched,
    ..LIBRARY
};

#[rustfmt::skip]
unsafe extern "C" fn step_untouched(
    image: *const u8, il: usize, state: *mut u8, sl: usize,
    row: *const u8, rl: usize, _: *mut u8, nl: usize,
) -> u64 {
    let mut own = vec![0; nl];
    (LIBRARY.step)(image, il, state, sl, row, rl, own.as_mut_ptr(), nl)
}

/// Marks every net and every register.
pub const ALL_MARKED: Calls = Calls {
    step: step_all_marked,
    ..LIBRARY
};

#[rustfmt::skip]
unsafe extern "C" fn step_all_marked(
    image: *const u8, il: usize, state: *mut u8, sl: usize,
    row: *const u8, rl: usize, nets: *mut u8, nl: usize,
) -> u64 {
    let answer = (LIBRARY.step)(image, il, state, sl, row, rl, nets, nl);
    if number_of(answer) == 0 {
        bytes_mut(nets, nl).iter_mut().for_each(|byte| *byte |= 2);
        change_registers::<false>(state, sl, |held| held.iter_mut().for_each(|byte| *byte |= 2));
    }
    answer
}

/// Clears the outputs before it refuses a row byte.
pub const REFUSED_WRITES: Calls = Calls {
    run: run_refused_writes::<false>,
    ..LIBRARY
};

/// Clears the outputs before it refuses a byte of a static run.
pub const REFUSED_WRITES_STATIC: Calls = Calls {
    static_run: run_refused_writes::<true>,
    ..LIBRARY
};

#[rustfmt::skip]
unsafe extern "C" fn run_refused_writes<const STATIC: bool>(
    image: *const u8, il: usize, k: usize, state: *mut u8, sl: usize,
    rows: *const u8, rl: usize, outputs: *mut u8, ol: usize,
) -> u64 {
    let answer = library_run::<STATIC>()(image, il, k, state, sl, rows, rl, outputs, ol);
    if matches!(number_of(answer), 13 | 18) {
        bytes_mut(outputs, ol).fill(0);
    }
    answer
}
