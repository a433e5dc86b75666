//! The functions of the static library themselves, whose answers are numbers as
//! `include/tracker.h` says: as it declares them, and each on slices.
//!
//! Those that it declares want pointers that are not null, each to as many bytes
//! as the length beside it says, and a buffer that is written must not overlap
//! another one. They keep no pointer.

mod declared;

pub use declared::{
    tracker_check, tracker_double, tracker_doubled_kind, tracker_doubled_size, tracker_page,
    tracker_power_up, tracker_run, tracker_static_power_up, tracker_static_run, tracker_step,
};

/// Whether an image is a netlist.
pub fn check(image: &[u8]) -> u64 {
    // SAFETY: The pointer and the length are those of a slice, which is
    // borrowed until the call returns and is only read.
    unsafe { tracker_check(image.as_ptr(), image.len()) }
}

/// Sets each register to its start, or to an untrusted 0 where none is given.
pub fn power_up(image: &[u8], state: &mut [u8]) -> u64 {
    // SAFETY: Each pointer and length are those of a slice, which is borrowed
    // until the call returns; the state is borrowed mutably, so it overlaps
    // nothing.
    unsafe { tracker_power_up(image.as_ptr(), image.len(), state.as_mut_ptr(), state.len()) }
}

/// Takes one clock cycle.
pub fn step(image: &[u8], state: &mut [u8], row: &[u8], nets: &mut [u8]) -> u64 {
    // SAFETY: Each pointer and length are those of a slice, which is borrowed
    // until the call returns; the state and the nets are borrowed mutably, so
    // neither overlaps another slice.
    unsafe {
        tracker_step(
            image.as_ptr(),
            image.len(),
            state.as_mut_ptr(),
            state.len(),
            row.as_ptr(),
            row.len(),
            nets.as_mut_ptr(),
            nets.len(),
        )
    }
}

/// Takes k clock cycles.
pub fn run(image: &[u8], k: usize, state: &mut [u8], rows: &[u8], outputs: &mut [u8]) -> u64 {
    // SAFETY: Each pointer and length are those of a slice, which is borrowed
    // until the call returns; the state and the outputs are borrowed mutably,
    // so neither overlaps another slice.
    unsafe {
        tracker_run(
            image.as_ptr(),
            image.len(),
            k,
            state.as_mut_ptr(),
            state.len(),
            rows.as_ptr(),
            rows.len(),
            outputs.as_mut_ptr(),
            outputs.len(),
        )
    }
}

/// Sets each register to the code of its start, which is that of an unknown
/// untrusted bit where none is given.
pub fn static_power_up(image: &[u8], state: &mut [u8]) -> u64 {
    // SAFETY: Each pointer and length are those of a slice, which is borrowed
    // until the call returns; the state is borrowed mutably, so it overlaps
    // nothing.
    unsafe { tracker_static_power_up(image.as_ptr(), image.len(), state.as_mut_ptr(), state.len()) }
}

/// Takes k clock cycles on codes.
pub fn static_run(
    image: &[u8],
    k: usize,
    state: &mut [u8],
    rows: &[u8],
    outputs: &mut [u8],
) -> u64 {
    // SAFETY: Each pointer and length are those of a slice, which is borrowed
    // until the call returns; the state and the outputs are borrowed mutably,
    // so neither overlaps another slice.
    unsafe {
        tracker_static_run(
            image.as_ptr(),
            image.len(),
            k,
            state.as_mut_ptr(),
            state.len(),
            rows.as_ptr(),
            rows.len(),
            outputs.as_mut_ptr(),
            outputs.len(),
        )
    }
}

/// How many nets the doubled netlist has.
pub fn doubled_size(image: &[u8]) -> u64 {
    // SAFETY: The pointer and the length are those of a slice, which is
    // borrowed until the call returns and is only read.
    unsafe { tracker_doubled_size(image.as_ptr(), image.len()) }
}

/// How many nets of one kind the doubled netlist has.
pub fn doubled_kind(image: &[u8], kind: usize) -> u64 {
    // SAFETY: The pointer and the length are those of a slice, which is
    // borrowed until the call returns and is only read.
    unsafe { tracker_doubled_kind(image.as_ptr(), image.len(), kind) }
}

/// Writes the doubled netlist.
pub fn double(image: &[u8], buffer: &mut [u8]) -> u64 {
    // SAFETY: Each pointer and length are those of a slice, which is borrowed
    // until the call returns; the buffer is borrowed mutably, so it overlaps
    // nothing.
    unsafe {
        tracker_double(
            image.as_ptr(),
            image.len(),
            buffer.as_mut_ptr(),
            buffer.len(),
        )
    }
}

/// Writes the pages of a run's outputs.
pub fn page(image: &[u8], k: usize, record: &[u8], page: &mut [u8]) -> u64 {
    // SAFETY: Each pointer and length are those of a slice, which is borrowed
    // until the call returns; the page is borrowed mutably, so it overlaps
    // nothing.
    unsafe {
        tracker_page(
            image.as_ptr(),
            image.len(),
            k,
            record.as_ptr(),
            record.len(),
            page.as_mut_ptr(),
            page.len(),
        )
    }
}
