//! What the broken stand-ins read of an image, the slices of their buffers, and the
//! functions that they stand in for.

use std::slice::{from_raw_parts, from_raw_parts_mut};
use tests::{states, PowerUp, Run, LIBRARY};
use tracker::Image;

/// The bytes of a lent buffer. The caller lends so many bytes.
pub unsafe fn bytes<'a>(pointer: *const u8, length: usize) -> &'a [u8] {
    from_raw_parts(pointer, length)
}

/// The bytes of a lent buffer, to be written.
pub unsafe fn bytes_mut<'a>(pointer: *mut u8, length: usize) -> &'a mut [u8] {
    from_raw_parts_mut(pointer, length)
}

/// The library's power-up, or its static power-up.
pub const fn library_power_up<const STATIC: bool>() -> PowerUp {
    if STATIC {
        LIBRARY.static_power_up
    } else {
        LIBRARY.power_up
    }
}

/// The library's run, or its static run.
pub const fn library_run<const STATIC: bool>() -> Run {
    if STATIC {
        LIBRARY.static_run
    } else {
        LIBRARY.run
    }
}

/// Has a change made to the registers of a state that was not refused. Its count
/// follows them, where it has one.
pub unsafe fn change_registers<const STATIC: bool>(
    state: *mut u8,
    length: usize,
    change: impl FnOnce(&mut [u8]),
) {
    let state = bytes_mut(state, length);
    if STATIC {
        return change(state);
    }
    let mut registers = states::registers(state).to_vec();
    change(&mut registers);
    state.copy_from_slice(&states::of(&registers));
}

/// A lent image that was not refused for its length.
pub unsafe fn read<'a>(image: *const u8, length: usize) -> Image<'a> {
    Image::of(bytes(image, length)).expect("an image of the right length")
}
