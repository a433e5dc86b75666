//! The codes of all gates on codes, worked out by the compiler from all fillings.

use crate::forms::table;
use tracker::codes::is_code;

/// A code for each kind and each code of pins a, b and c, at
/// kind * 512 + a * 64 + b * 8 + c. Kinds 0 to 2 and OUT pass on pin a. Where a pin
/// has no code there is 0.
pub static TABLE: [u8; 9 * 512] = filled();

const fn filled() -> [u8; 9 * 512] {
    let mut table = [0; 9 * 512];
    let mut index = 0;
    while index < table.len() {
        let (a, b, c) = (index / 64 % 8, index / 8 % 8, index % 8);
        let (a, b, c) = (a as u8, b as u8, c as u8);
        if is_code(a) && is_code(b) && is_code(c) {
            table[index] = code(index / 512, a, b, c);
        }
        index += 1;
    }
    table
}

/// The code of a gate by its pins' codes: that of all fillings together.
const fn code(kind: usize, a: u8, b: u8, c: u8) -> u8 {
    let mut code = None;
    let mut filling = 0;
    while filling < 8 {
        let (a, b, c) = (
            fill(a, filling),
            fill(b, filling >> 1),
            fill(c, filling >> 2),
        );
        code = Some(with(code, table::code(kind, a, b, c)));
        filling += 1;
    }
    match code {
        Some(code) => code,
        None => 0,
    }
}

/// What a code is filled with: its known byte, or its mark and the lowest bit of a
/// filling.
const fn fill(code: u8, filling: u8) -> u8 {
    match code {
        0..=3 => code,
        _ => (code & 2) + (filling & 1),
    }
}

/// The code of what some fillings gave and the byte of one more. The value is known
/// where they agree in it, and the mark is 1 where any of them has it.
pub const fn with(code: Option<u8>, byte: u8) -> u8 {
    match code {
        None => byte,
        Some(code) if code < 4 && code & 1 == byte & 1 => code | byte,
        Some(code) => 4 | ((code | byte) & 2),
    }
}

/// What an inverted pin reads on a net of a code: an unknown one stays as it is.
#[inline(always)]
pub const fn inverse(code: u8) -> u8 {
    code ^ (code < 4) as u8
}

/// Whether a code has mark 1.
#[inline(always)]
pub const fn is_marked(code: u8) -> bool {
    code & 2 != 0
}
