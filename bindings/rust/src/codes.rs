//! The codes of a static power-up and a static run, each one byte: 0 to 3 for a
//! known bit, value + 2 × mark as in a run, and two more for a bit whose value is
//! not known.

/// A trusted bit whose value is not known. It stands for 0 and 1.
pub const UNKNOWN_TRUSTED: u8 = 4;

/// An untrusted bit whose value is not known. It stands for 2 and 3.
pub const UNKNOWN_UNTRUSTED: u8 = 6;

/// Whether a byte is a code: 0 to 4, or 6.
#[must_use]
pub const fn is_code(byte: u8) -> bool {
    byte <= UNKNOWN_TRUSTED || byte == UNKNOWN_UNTRUSTED
}

/// The value of a code, 0 or 1, or none where it is not known.
///
/// ```
/// use tracker::codes;
///
/// assert_eq!(codes::value(3), Some(1));
/// assert_eq!(codes::value(codes::UNKNOWN_TRUSTED), None);
/// ```
#[must_use]
pub const fn value(code: u8) -> Option<u8> {
    match code {
        0..=3 => Some(code % 2),
        _ => None,
    }
}

/// Whether a code has mark 1: 2, 3 and 6 are untrusted.
///
/// ```
/// use tracker::codes;
///
/// assert!(codes::is_marked(codes::UNKNOWN_UNTRUSTED));
/// assert!(!codes::is_marked(codes::UNKNOWN_TRUSTED));
/// ```
#[must_use]
pub const fn is_marked(code: u8) -> bool {
    matches!(code, 2 | 3 | UNKNOWN_UNTRUSTED)
}
