//! Stand-ins that leave a wrong count of marked registers. The other bytes that they
//! leave are right, and so are their answers, but for one that reads the count otherwise
//! too.

use crate::parts::{bytes, bytes_mut, read};
use tests::coding::number_of;
use tests::{states, Calls, LIBRARY};
use tracker::ffi;

/// What an accepted call did: the state that it was lent, the state before its last
/// clock, the nets of its last cycle, and the registers that it left.
struct Left<'a> {
    lent: &'a [u8],
    before: Vec<u8>,
    nets: Vec<u8>,
    registers: Vec<u8>,
}

/// A wrong count.
type Counting = fn(&Left) -> usize;

const COUNTINGS: [Counting; 5] = [
    |left| states::count(&left.before),
    |left| states::count(left.lent),
    |left| states::marked(&left.nets),
    |left| left.registers.iter().filter(|byte| **byte % 2 == 1).count(),
    |left| states::marked(&left.registers) % 256,
];

/// Counts the registers as they were before the last clock.
pub const BEFORE_THE_CLOCK: Calls = cycled::<0>();

/// Runs and leaves the count that the caller lent.
pub const RUN_KEEPS_COUNT: Calls = Calls {
    run: run::<1>,
    ..LIBRARY
};

/// Leaves the count at power-up.
pub const LEFT_AT_POWER_UP: Calls = Calls {
    power_up: power_up::<1>,
    ..LIBRARY
};

/// Counts the marked nets.
pub const MARKED_NETS: Calls = cycled::<2>();

/// Counts the registers with value 1.
pub const VALUES: Calls = cycled::<3>();

/// Leaves the low byte alone.
pub const LOW_BYTE_ALONE: Calls = Calls {
    power_up: power_up::<4>,
    ..cycled::<4>()
};

/// The stand-in with this count after steps and runs.
const fn cycled<const INDEX: usize>() -> Calls {
    Calls {
        step: step::<INDEX>,
        run: run::<INDEX>,
        ..LIBRARY
    }
}

#[rustfmt::skip]
unsafe extern "C" fn power_up<const INDEX: usize>(
    image: *const u8, il: usize, state: *mut u8, sl: usize,
) -> u64 {
    let lent = bytes(state, sl).to_vec();
    let answer = (LIBRARY.power_up)(image, il, state, sl);
    if answer == 0 {
        miscount::<INDEX>(bytes_mut(state, sl), &lent, lent.clone(), Vec::new());
    }
    answer
}

#[rustfmt::skip]
unsafe extern "C" fn step<const INDEX: usize>(
    image: *const u8, il: usize, state: *mut u8, sl: usize,
    row: *const u8, rl: usize, nets: *mut u8, nl: usize,
) -> u64 {
    let lent = bytes(state, sl).to_vec();
    let answer = (LIBRARY.step)(image, il, state, sl, row, rl, nets, nl);
    if number_of(answer) == 0 {
        miscount::<INDEX>(bytes_mut(state, sl), &lent, lent.clone(), bytes(nets, nl).to_vec());
    }
    answer
}

/// With k = 0 the state stays as it is.
#[rustfmt::skip]
unsafe extern "C" fn run<const INDEX: usize>(
    image: *const u8, il: usize, k: usize, state: *mut u8, sl: usize,
    rows: *const u8, rl: usize, outputs: *mut u8, ol: usize,
) -> u64 {
    let lent = bytes(state, sl).to_vec();
    let answer = (LIBRARY.run)(image, il, k, state, sl, rows, rl, outputs, ol);
    if number_of(answer) == 0 && k > 0 {
        let sizes = read(image, il).sizes();
        let (first, last) = bytes(rows, rl).split_at((k - 1) * sizes.inputs);
        let (mut before, mut nets) = (lent.clone(), vec![0; sizes.nets]);
        let mut filled = vec![0; (k - 1) * sizes.outputs];
        ffi::run(bytes(image, il), k - 1, &mut before, first, &mut filled);
        ffi::step(bytes(image, il), &mut before.clone(), last, &mut nets);
        miscount::<INDEX>(bytes_mut(state, sl), &lent, before, nets);
    }
    answer
}

/// Puts a wrong count into the state that an accepted call left.
fn miscount<const INDEX: usize>(state: &mut [u8], lent: &[u8], before: Vec<u8>, nets: Vec<u8>) {
    let left = Left {
        lent,
        before,
        nets,
        registers: states::registers(state).to_vec(),
    };
    states::put_count(state, COUNTINGS[INDEX](&left));
}

/// Takes and leaves the count with its high byte first.
pub const HIGH_BYTE_FIRST: Calls = Calls {
    power_up: power_up_high_first,
    step: step_high_first,
    run: run_high_first,
    ..LIBRARY
};

/// Swaps the bytes of the count, where there is room for one.
unsafe fn swap(state: *mut u8, length: usize) {
    if let [.., low, high] = bytes_mut(state, length) {
        std::mem::swap(low, high);
    }
}

#[rustfmt::skip]
unsafe extern "C" fn power_up_high_first(
    image: *const u8, il: usize, state: *mut u8, sl: usize,
) -> u64 {
    let answer = (LIBRARY.power_up)(image, il, state, sl);
    if answer == 0 {
        swap(state, sl);
    }
    answer
}

#[rustfmt::skip]
unsafe extern "C" fn step_high_first(
    image: *const u8, il: usize, state: *mut u8, sl: usize,
    row: *const u8, rl: usize, nets: *mut u8, nl: usize,
) -> u64 {
    swap(state, sl);
    let answer = (LIBRARY.step)(image, il, state, sl, row, rl, nets, nl);
    swap(state, sl);
    answer
}

#[rustfmt::skip]
unsafe extern "C" fn run_high_first(
    image: *const u8, il: usize, k: usize, state: *mut u8, sl: usize,
    rows: *const u8, rl: usize, outputs: *mut u8, ol: usize,
) -> u64 {
    swap(state, sl);
    let answer = (LIBRARY.run)(image, il, k, state, sl, rows, rl, outputs, ol);
    swap(state, sl);
    answer
}
