//! The calls of another build of the library, on slices. Build.rs gives each of
//! them the name that stands here. A build whose states have no count is lent the
//! registers of a state alone.

use std::sync::OnceLock;

use crate::state::parts;
use tracker::kinds::CONST;
use tracker::{encode, state_length, Net};

extern "C" {
    fn other_check(image: *const u8, image_length: usize) -> u64;
    fn other_power_up(
        image: *const u8,
        image_length: usize,
        state: *mut u8,
        state_length: usize,
    ) -> u64;
    fn other_step(
        image: *const u8,
        image_length: usize,
        state: *mut u8,
        state_length: usize,
        row: *const u8,
        row_length: usize,
        nets: *mut u8,
        nets_length: usize,
    ) -> u64;
    fn other_run(
        image: *const u8,
        image_length: usize,
        k: usize,
        state: *mut u8,
        state_length: usize,
        rows: *const u8,
        rows_length: usize,
        outputs: *mut u8,
        outputs_length: usize,
    ) -> u64;
    #[cfg(other_static)]
    fn other_static_run(
        image: *const u8,
        image_length: usize,
        k: usize,
        state: *mut u8,
        state_length: usize,
        rows: *const u8,
        rows_length: usize,
        outputs: *mut u8,
        outputs_length: usize,
    ) -> u64;
    #[cfg(other_size)]
    fn other_doubled_size(image: *const u8, image_length: usize) -> u64;
    fn other_double(
        image: *const u8,
        image_length: usize,
        buffer: *mut u8,
        buffer_length: usize,
    ) -> u64;
    #[cfg(other_page)]
    fn other_page(
        image: *const u8,
        image_length: usize,
        k: usize,
        record: *const u8,
        record_length: usize,
        page: *mut u8,
        page_length: usize,
    ) -> u64;
}

// SAFETY, for each of the calls below: each pointer and length are those of a
// slice, which is borrowed until the call returns; what is written is borrowed
// mutably, so it overlaps no other slice.

pub fn check(image: &[u8]) -> u64 {
    unsafe { other_check(image.as_ptr(), image.len()) }
}

fn power_up_whole(image: &[u8], state: &mut [u8]) -> u64 {
    unsafe { other_power_up(image.as_ptr(), image.len(), state.as_mut_ptr(), state.len()) }
}

/// Whether the states of this build have a count, which is tried once: without
/// registers, a state is the count alone.
pub fn has_count() -> bool {
    static HAS_COUNT: OnceLock<bool> = OnceLock::new();
    *HAS_COUNT.get_or_init(|| {
        let image = encode(&[Net::new(CONST, 0, 0, 0)]);
        power_up_whole(&image, &mut vec![0; state_length(0)]) == 0
    })
}

/// What this build is lent of a state.
fn lent(state: &mut [u8]) -> &mut [u8] {
    match has_count() {
        true => state,
        false => parts(state).0,
    }
}

pub fn power_up(image: &[u8], state: &mut [u8]) -> u64 {
    power_up_whole(image, lent(state))
}

pub fn step(image: &[u8], state: &mut [u8], row: &[u8], nets: &mut [u8]) -> u64 {
    let state = lent(state);
    unsafe {
        other_step(
            image.as_ptr(),
            image.len(),
            state.as_mut_ptr(),
            state.len(),
            row.as_ptr(),
            row.len(),
            nets.as_mut_ptr(),
            nets.len(),
        )
    }
}

pub fn run(image: &[u8], k: usize, state: &mut [u8], rows: &[u8], outputs: &mut [u8]) -> u64 {
    let state = lent(state);
    unsafe {
        other_run(
            image.as_ptr(),
            image.len(),
            k,
            state.as_mut_ptr(),
            state.len(),
            rows.as_ptr(),
            rows.len(),
            outputs.as_mut_ptr(),
            outputs.len(),
        )
    }
}

/// The static run. It is there only where the other build has it.
#[cfg(other_static)]
pub fn static_run(
    image: &[u8],
    k: usize,
    state: &mut [u8],
    rows: &[u8],
    outputs: &mut [u8],
) -> u64 {
    unsafe {
        other_static_run(
            image.as_ptr(),
            image.len(),
            k,
            state.as_mut_ptr(),
            state.len(),
            rows.as_ptr(),
            rows.len(),
            outputs.as_mut_ptr(),
            outputs.len(),
        )
    }
}

/// The doubled size, where the other build has it.
#[cfg(other_size)]
pub const DOUBLED_SIZE: Option<fn(&[u8]) -> u64> = Some(doubled_size);
#[cfg(not(other_size))]
pub const DOUBLED_SIZE: Option<fn(&[u8]) -> u64> = None;

#[cfg(other_size)]
fn doubled_size(image: &[u8]) -> u64 {
    unsafe { other_doubled_size(image.as_ptr(), image.len()) }
}

pub fn double(image: &[u8], buffer: &mut [u8]) -> u64 {
    unsafe {
        other_double(
            image.as_ptr(),
            image.len(),
            buffer.as_mut_ptr(),
            buffer.len(),
        )
    }
}

/// The pages. They are there only where the other build has the call.
#[cfg(other_page)]
pub fn page(image: &[u8], k: usize, record: &[u8], page: &mut [u8]) -> u64 {
    unsafe {
        other_page(
            image.as_ptr(),
            image.len(),
            k,
            record.as_ptr(),
            record.len(),
            page.as_mut_ptr(),
            page.len(),
        )
    }
}
