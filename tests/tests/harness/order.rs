//! Stand-ins that try the conditions of refusals in a wrong order, or with a
//! number of cycles that lost its high bits.

use crate::parts::{library_run, read};
use tests::coding::number_of;
use tests::{Calls, LIBRARY};

const ONE: u64 = 1 << 32;

/// Tries the length of the net buffer before the state and the row.
pub const BUFFER_FIRST: Calls = Calls {
    step: step_buffer_first,
    ..LIBRARY
};

#[rustfmt::skip]
unsafe extern "C" fn step_buffer_first(
    image: *const u8, il: usize, state: *mut u8, sl: usize,
    row: *const u8, rl: usize, nets: *mut u8, nl: usize,
) -> u64 {
    let answer = (LIBRARY.step)(image, il, state, sl, row, rl, nets, nl);
    match number_of(answer) {
        10..=13 | 20 if nl != read(image, il).sizes().nets => 14 * ONE,
        _ => answer,
    }
}

/// Takes the low 32 bits of k alone.
pub const NARROW_K: Calls = Calls {
    run: run_narrow_k::<false>,
    ..LIBRARY
};

/// Takes the low 32 bits of a static run's k alone.
pub const NARROW_K_STATIC: Calls = Calls {
    static_run: run_narrow_k::<true>,
    ..LIBRARY
};

#[rustfmt::skip]
unsafe extern "C" fn run_narrow_k<const STATIC: bool>(
    image: *const u8, il: usize, k: usize, state: *mut u8, sl: usize,
    rows: *const u8, rl: usize, outputs: *mut u8, ol: usize,
) -> u64 {
    let k = k % (1 << 32);
    library_run::<STATIC>()(image, il, k, state, sl, rows, rl, outputs, ol)
}

/// Tries the product of k and I, which may wrap around, before k itself.
pub const PRODUCT_FIRST: Calls = Calls {
    run: run_product_first,
    ..LIBRARY
};

#[rustfmt::skip]
unsafe extern "C" fn run_product_first(
    image: *const u8, il: usize, k: usize, state: *mut u8, sl: usize,
    rows: *const u8, rl: usize, outputs: *mut u8, ol: usize,
) -> u64 {
    let answer = (LIBRARY.run)(image, il, k, state, sl, rows, rl, outputs, ol);
    match number_of(answer) {
        9 if rl != k.wrapping_mul(read(image, il).sizes().inputs) => 12 * ONE,
        _ => answer,
    }
}
