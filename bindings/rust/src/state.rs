//! The layout of a state: the bytes of the registers, and then the number of
//! marked ones as two bytes, of which the low one comes first.

/// The bytes of the count.
const COUNT: usize = 2;

/// The length in bytes of a state of so many registers: R + 2.
///
/// It is that of [`power_up`](crate::power_up), [`step`](crate::step) and
/// [`run`](crate::run). The static calls take a byte for each register and no
/// count.
///
/// ```
/// assert_eq!(tracker::state_length(6), 8);
/// ```
#[inline]
#[must_use]
pub const fn state_length(registers: usize) -> usize {
    registers + COUNT
}

/// Reads how many registers are marked in the last two bytes of a state, or none
/// where it has fewer.
///
/// It does not count: the number is what these bytes say, also in a state that
/// [`step`](crate::step) and [`run`](crate::run) refuse.
///
/// ```
/// use tracker::marked_registers;
///
/// // Three registers, of which two are marked.
/// assert_eq!(marked_registers(&[2, 1, 3, 2, 0]), Some(2));
/// // 255 + 31 × 256.
/// assert_eq!(marked_registers(&[0, 255, 31]), Some(8_191));
/// assert_eq!(marked_registers(&[1]), None);
/// ```
#[inline]
#[must_use]
pub fn marked_registers(state: &[u8]) -> Option<usize> {
    match *state {
        [.., low, high] => Some(usize::from(u16::from_le_bytes([low, high]))),
        _ => None,
    }
}
