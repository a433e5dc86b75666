//! The codes of all gates, worked out by the compiler from the formulas.

/// A code for each kind and each byte of pins a, b and c, at
/// kind * 64 + a * 16 + b * 4 + c. Kinds 0 to 2 and OUT pass on pin a.
pub static TABLE: [u8; 576] = filled();

/// The same codes, each with its inverse behind it.
pub static PAIRS: [[u8; 2]; 576] = paired();

/// The same codes, and zeros up to the largest index that four bytes can give.
pub static WIDE: [u8; 255 * 85 + 1] = filled();

const fn filled<const LENGTH: usize>() -> [u8; LENGTH] {
    let mut table = [0; LENGTH];
    let mut index = 0;
    while index < 576 {
        let kind = index / 64;
        let (a, b, c) = (index / 16 % 4, index / 4 % 4, index % 4);
        table[index] = code(kind, a as u8, b as u8, c as u8);
        index += 1;
    }
    table
}

const fn paired() -> [[u8; 2]; 576] {
    let table: [u8; 576] = filled();
    let mut pairs = [[0; 2]; 576];
    let mut index = 0;
    while index < 576 {
        pairs[index] = [table[index], table[index] ^ 1];
        index += 1;
    }
    pairs
}

/// The byte of a value and a mark, each in the lowest bit.
const fn byte(value: u8, mark: u8) -> u8 {
    (value & 1) | ((mark & 1) << 1)
}

/// The byte of a gate by its pins' bytes.
pub const fn code(kind: usize, a: u8, b: u8, c: u8) -> u8 {
    let (ta, tb) = (a >> 1, b >> 1);
    match kind {
        3 => a ^ 1,
        4 => byte(a & b, (ta & b) | (tb & a) | (ta & tb)),
        5 => byte(a | b, (ta & !b) | (tb & !a) | (ta & tb)),
        6 => byte(a ^ b, ta | tb),
        7 => {
            let chosen = if c & 1 == 0 { a } else { b };
            if c >= 2 {
                byte(chosen, (a ^ b) | ta | tb)
            } else {
                chosen
            }
        }
        _ => a,
    }
}
