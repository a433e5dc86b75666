//! Stand-ins that get doubling wrong.

use crate::parts::{bytes, bytes_mut, read};
use reference::GROUP_LENGTHS;
use tests::{Calls, LIBRARY};
use tracker::kinds::{MUX, OR};
use tracker::{doubled_size, kind_place, operand_place};

/// Writes a doubled image with one wrong byte: operand a of its last net. The
/// mark net of the last group then reads another net.
pub const ONE_BYTE_WRONG: Calls = Calls {
    double: double_one_wrong,
    ..LIBRARY
};

unsafe extern "C" fn double_one_wrong(i: *const u8, il: usize, buffer: *mut u8, bl: usize) -> u64 {
    let answer = (LIBRARY.double)(i, il, buffer, bl);
    if answer == 0 {
        let nets = read(buffer, bl).sizes().nets;
        bytes_mut(buffer, bl)[operand_place(nets, nets - 1, 0)] ^= 1;
    }
    answer
}

/// Writes a doubled image of the right length that holds CONSTs only.
pub const CONSTS_ONLY: Calls = Calls {
    double: double_consts,
    ..LIBRARY
};

unsafe extern "C" fn double_consts(i: *const u8, il: usize, buffer: *mut u8, bl: usize) -> u64 {
    let answer = (LIBRARY.double)(i, il, buffer, bl);
    if answer == 0 {
        bytes_mut(buffer, bl)[2..].fill(0);
    }
    answer
}

/// Writes an OR for the XOR that is p, the second net, in the group of a MUX.
pub const OR_FOR_P: Calls = Calls {
    double: double_or_for_p,
    ..LIBRARY
};

unsafe extern "C" fn double_or_for_p(i: *const u8, il: usize, buffer: *mut u8, bl: usize) -> u64 {
    let answer = (LIBRARY.double)(i, il, buffer, bl);
    if answer == 0 {
        let mut first = 0;
        for kind in read(i, il).kinds() {
            if *kind == MUX {
                bytes_mut(buffer, bl)[kind_place(first + 1)] = OR;
            }
            first += GROUP_LENGTHS[usize::from(*kind)];
        }
    }
    answer
}

/// Takes a buffer that is longer than the doubled image.
pub const TAKES_LONGER: Calls = Calls {
    double: double_longer,
    ..LIBRARY
};

unsafe extern "C" fn double_longer(i: *const u8, il: usize, buffer: *mut u8, bl: usize) -> u64 {
    let answer = (LIBRARY.double)(i, il, buffer, bl);
    if answer >> 32 != 16 {
        return answer;
    }
    match doubled_size(bytes(i, il)) {
        Ok(size) if size.bytes < bl => (LIBRARY.double)(i, il, buffer, size.bytes),
        _ => answer,
    }
}
