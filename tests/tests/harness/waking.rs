//! Stand-ins that get registers without a start wrong, at power-up or in the
//! doubled netlist.

use crate::parts::{bytes, bytes_mut, change_registers, library_power_up, read};
use tests::{Calls, LIBRARY};
use tracker::kinds::REG;
use tracker::operand_place;

/// The start of a register for which none is given.
const NONE_GIVEN: u16 = 2;

/// Powers a register without a start up as a trusted 0.
pub const WAKES_TRUSTED: Calls = waking_as::<0>();

/// Powers a register without a start up as an untrusted 1.
pub const WAKES_AS_1: Calls = waking_as::<3>();

/// Powers a register without a start statically up as an unknown trusted bit.
pub const WAKES_AS_4: Calls = Calls {
    static_power_up: power_up_as::<4, true>,
    ..LIBRARY
};

const fn waking_as<const BYTE: u8>() -> Calls {
    Calls {
        power_up: power_up_as::<BYTE, false>,
        ..LIBRARY
    }
}

#[rustfmt::skip]
unsafe extern "C" fn power_up_as<const BYTE: u8, const STATIC: bool>(
    image: *const u8, il: usize, state: *mut u8, sl: usize,
) -> u64 {
    let answer = library_power_up::<STATIC>()(image, il, state, sl);
    if answer == 0 {
        let registers = read(image, il).nets().filter(|net| net.kind == REG);
        change_registers::<STATIC>(state, sl, |held| {
            for (byte, register) in held.iter_mut().zip(registers) {
                if register.operands[1] == NONE_GIVEN {
                    *byte = BYTE;
                }
            }
        });
    }
    answer
}

/// Starts every mark register at 0.
pub const MARKS_AT_0: Calls = marks_at::<0, 0>();

/// Gives the mark register of a register without a start none either.
pub const MARKS_UNKNOWN: Calls = marks_at::<2, 0>();

/// Starts every mark register at 1.
pub const MARKS_AT_1: Calls = marks_at::<1, 1>();

/// The mark register of a register without a start has the first of these
/// starts, and every other mark register the second.
const fn marks_at<const UNKNOWN: u8, const GIVEN: u8>() -> Calls {
    Calls {
        double: double_marks_at::<UNKNOWN, GIVEN>,
        ..LIBRARY
    }
}

#[rustfmt::skip]
unsafe extern "C" fn double_marks_at<const UNKNOWN: u8, const GIVEN: u8>(
    image: *const u8, il: usize, buffer: *mut u8, bl: usize,
) -> u64 {
    let answer = (LIBRARY.double)(image, il, buffer, bl);
    if answer != 0 {
        return answer;
    }
    let written = bytes(buffer, bl).to_vec();
    let doubled = read(written.as_ptr(), bl);
    let size = doubled.sizes().nets;
    let registers: Vec<usize> = (0..size).filter(|net| doubled.kinds()[*net] == REG).collect();
    for pair in registers.chunks(2) {
        let is_given = doubled.operand(pair[0], 1) != NONE_GIVEN;
        let start = if is_given { GIVEN } else { UNKNOWN };
        bytes_mut(buffer, bl)[operand_place(size, pair[1], 1)] = start;
    }
    answer
}
