//! The library's calls, and those of another build of it where TRACKER_OTHER
//! named one when this program was built.

use crate::pins::has_inverted_pins;
use tracker::ffi;

#[cfg(other)]
use crate::other;

/// A check: the image.
type Check = fn(&[u8]) -> u64;

/// A power-up: the image and the state.
type PowerUp = fn(&[u8], &mut [u8]) -> u64;

/// A step: the image, the state, the row and the nets.
type Step = fn(&[u8], &mut [u8], &[u8], &mut [u8]) -> u64;

/// A run: the image, k, the state, the rows and the outputs.
pub type Run = fn(&[u8], usize, &mut [u8], &[u8], &mut [u8]) -> u64;

/// The nets of the doubled netlist: the image.
type DoubledSize = fn(&[u8]) -> u64;

/// A doubling: the image and the buffer.
type Double = fn(&[u8], &mut [u8]) -> u64;

/// The calls of one build.
#[derive(Clone, Copy)]
pub struct Library {
    pub name: &'static str,
    pub check: Check,
    pub power_up: PowerUp,
    pub step: Step,
    pub run: Run,
    /// None where this build has no such call.
    pub doubled_size: Option<DoubledSize>,
    pub double: Double,
}

/// The library first, then the other build.
pub const LIBRARIES: &[Library] = &[
    Library {
        name: "library",
        check: ffi::check,
        power_up: ffi::power_up,
        step: ffi::step,
        run: ffi::run,
        doubled_size: Some(ffi::doubled_size),
        double: ffi::double,
    },
    #[cfg(other)]
    Library {
        name: "other",
        check: other::check,
        power_up: other::power_up,
        step: other::step,
        run: other::run,
        doubled_size: other::DOUBLED_SIZE,
        double: other::double,
    },
];

/// The build of a name.
pub fn named(name: &str) -> Option<Library> {
    LIBRARIES
        .iter()
        .find(|library| library.name == name)
        .copied()
}

/// What a build or a peer of a name leaves of a state of so many registers: all of it,
/// or, of another build whose states have no count, the registers.
pub fn left<'a>(name: &str, registers: usize, state: &'a [u8]) -> &'a [u8] {
    match name == "other" && !other_has_count() {
        true => &state[..registers],
        false => state,
    }
}

/// Whether the states of the other build have a count.
fn other_has_count() -> bool {
    #[cfg(other)]
    return other::has_count();
    #[cfg(not(other))]
    true
}

/// Whether a build or a peer of a name takes an accepted image. All do, but for
/// another build of before inverted pins, which refuses images that have some.
pub fn takes(name: &str, image: &[u8]) -> bool {
    let accepts = |library: Library| (library.check)(image) == 0;
    !has_inverted_pins(image) || named(name).map_or(true, accepts)
}
