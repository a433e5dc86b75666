//! Bytes as text, for a case that is run again.

/// Of a longer list only so many bytes are shown by `hex_start`.
const MOST_SHOWN: usize = 8192;

/// The bytes in hexadecimal, without spaces.
pub fn hex(bytes: &[u8]) -> String {
    let digit = |four: u8| char::from(b"0123456789abcdef"[usize::from(four)]);
    let digits = bytes.iter().flat_map(|byte| [byte / 16, byte % 16]);
    digits.map(digit).collect()
}

/// The bytes in hexadecimal, or the first of them with a note.
pub fn hex_start(bytes: &[u8]) -> String {
    if bytes.len() <= MOST_SHOWN {
        return hex(bytes);
    }
    let start = hex(&bytes[..MOST_SHOWN]);
    format!("{start} and {} bytes more", bytes.len() - MOST_SHOWN)
}
