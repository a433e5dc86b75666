//! The ten functions of the compiled library.
//!
//! They are held in a struct, so that a broken stand-in can take the place of
//! any of them and the harness can be seen to notice it.

use tracker::ffi;

/// The type of `tracker_check`: the image.
pub type Check = unsafe extern "C" fn(*const u8, usize) -> u64;

/// The type of `tracker_power_up` and `tracker_static_power_up`: the image and the
/// state.
pub type PowerUp = unsafe extern "C" fn(*const u8, usize, *mut u8, usize) -> u64;

/// The type of `tracker_step`: the image, the state, the row and the nets.
pub type Step =
    unsafe extern "C" fn(*const u8, usize, *mut u8, usize, *const u8, usize, *mut u8, usize) -> u64;

/// The type of `tracker_run` and `tracker_static_run`: the image, k, the state, the
/// rows and the outputs.
pub type Run = unsafe extern "C" fn(
    *const u8,
    usize,
    usize,
    *mut u8,
    usize,
    *const u8,
    usize,
    *mut u8,
    usize,
) -> u64;

/// The type of `tracker_doubled_size`: the image.
pub type DoubledSize = unsafe extern "C" fn(*const u8, usize) -> u64;

/// The type of `tracker_doubled_kind`: the image and the kind.
pub type DoubledKind = unsafe extern "C" fn(*const u8, usize, usize) -> u64;

/// The type of `tracker_double`: the image and the buffer.
pub type Double = unsafe extern "C" fn(*const u8, usize, *mut u8, usize) -> u64;

/// The type of `tracker_page`: the image, k, the record and the page.
pub type Page =
    unsafe extern "C" fn(*const u8, usize, usize, *const u8, usize, *mut u8, usize) -> u64;

#[derive(Clone, Copy)]
pub struct Calls {
    pub check: Check,
    pub power_up: PowerUp,
    pub step: Step,
    pub run: Run,
    pub doubled_size: DoubledSize,
    pub doubled_kind: DoubledKind,
    pub double: Double,
    pub static_power_up: PowerUp,
    pub static_run: Run,
    pub page: Page,
}

/// The compiled library itself.
pub const LIBRARY: Calls = Calls {
    check: ffi::tracker_check,
    power_up: ffi::tracker_power_up,
    step: ffi::tracker_step,
    run: ffi::tracker_run,
    doubled_size: ffi::tracker_doubled_size,
    doubled_kind: ffi::tracker_doubled_kind,
    double: ffi::tracker_double,
    static_power_up: ffi::tracker_static_power_up,
    static_run: ffi::tracker_static_run,
    page: ffi::tracker_page,
};
