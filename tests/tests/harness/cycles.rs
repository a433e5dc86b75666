//! Stand-ins that get the cycles wrong: the clock, or what a run leaves.

use crate::parts::{bytes, bytes_mut, change_registers, library_run, read};
use reference::not_byte;
use tests::coding::{number_of, CLEAR};
use tests::listed::net_of;
use tests::{Calls, LIBRARY};
use tracker::kinds::{INVERTED, REG};

/// Clocks the registers one after another, so that one sees another's new byte.
pub const CLOCKED_IN_TURN: Calls = Calls {
    step: step_clocked_in_turn,
    ..LIBRARY
};

#[rustfmt::skip]
unsafe extern "C" fn step_clocked_in_turn(
    image: *const u8, il: usize, state: *mut u8, sl: usize,
    row: *const u8, rl: usize, nets: *mut u8, nl: usize,
) -> u64 {
    let answer = (LIBRARY.step)(image, il, state, sl, row, rl, nets, nl);
    if number_of(answer) != 0 {
        return answer;
    }
    let image = read(image, il);
    let mut seen = bytes(nets, nl).to_vec();
    let registers = (0..nl).filter(|net| image.kinds()[*net] == REG);
    change_registers::<false>(state, sl, |held| {
        for (index, net) in registers.enumerate() {
            let pin = image.operand(net, 0);
            let byte = seen[net_of(pin)];
            seen[net] = if pin >= INVERTED { not_byte(byte) } else { byte };
            held[index] = seen[net];
        }
    });
    answer
}

/// Fills the outputs up to the first flow only.
pub const STOPS_AT_FLOW: Calls = Calls {
    run: run_stops_at_flow::<false>,
    ..LIBRARY
};

/// Fills the outputs of a static run up to the first flow only.
pub const STOPS_AT_FLOW_STATIC: Calls = Calls {
    static_run: run_stops_at_flow::<true>,
    ..LIBRARY
};

#[rustfmt::skip]
unsafe extern "C" fn run_stops_at_flow<const STATIC: bool>(
    image: *const u8, il: usize, k: usize, state: *mut u8, sl: usize,
    rows: *const u8, rl: usize, outputs: *mut u8, ol: usize,
) -> u64 {
    let before = bytes(outputs, ol).to_vec();
    let answer = library_run::<STATIC>()(image, il, k, state, sl, rows, rl, outputs, ol);
    if number_of(answer) == 0 && answer % 65_536 != CLEAR {
        let cycles = (answer / 65_536) as usize + 1;
        let filled = cycles * read(image, il).sizes().outputs;
        bytes_mut(outputs, ol)[filled..].copy_from_slice(&before[filled..]);
    }
    answer
}

/// Works out cycle 0 and copies its outputs onward.
pub const COPIES_CYCLE_0: Calls = Calls {
    run: run_copies_cycle_0,
    ..LIBRARY
};

#[rustfmt::skip]
unsafe extern "C" fn run_copies_cycle_0(
    image: *const u8, il: usize, k: usize, state: *mut u8, sl: usize,
    rows: *const u8, rl: usize, outputs: *mut u8, ol: usize,
) -> u64 {
    let answer = (LIBRARY.run)(image, il, k, state, sl, rows, rl, outputs, ol);
    if number_of(answer) == 0 && k > 0 {
        let outputs = bytes_mut(outputs, ol);
        for index in ol / k..ol {
            outputs[index] = outputs[index % (ol / k)];
        }
    }
    answer
}

/// Runs and leaves the state with which it began.
pub const RUN_KEEPS_STATE: Calls = Calls {
    run: run_keeps_state::<false>,
    ..LIBRARY
};

/// Runs statically and leaves the state with which it began.
pub const RUN_KEEPS_STATE_STATIC: Calls = Calls {
    static_run: run_keeps_state::<true>,
    ..LIBRARY
};

#[rustfmt::skip]
unsafe extern "C" fn run_keeps_state<const STATIC: bool>(
    image: *const u8, il: usize, k: usize, state: *mut u8, sl: usize,
    rows: *const u8, rl: usize, outputs: *mut u8, ol: usize,
) -> u64 {
    let before = bytes(state, sl).to_vec();
    let answer = library_run::<STATIC>()(image, il, k, state, sl, rows, rl, outputs, ol);
    bytes_mut(state, sl).copy_from_slice(&before);
    answer
}
