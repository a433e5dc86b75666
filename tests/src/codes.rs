//! Codes of static runs: drawn, spoiled, filled, and held against the bytes of a run
//! that fills them.

use crate::bytes::{spoil_by, tracked};
use crate::random::Random;
use tracker::codes::{is_code, is_marked, value, UNKNOWN_TRUSTED, UNKNOWN_UNTRUSTED};

/// Codes. The shares of marks and of unknown values are drawn for the whole list.
pub fn draw(random: &mut Random, length: usize) -> Vec<u8> {
    let mut codes = tracked(random, length);
    let share = random.pick(&[0, 1, 4, 8, 8, 12, 16, 16]);
    let draws = random.bytes(length);
    for (code, draw) in codes.iter_mut().zip(draws) {
        if usize::from(draw / 16) < share {
            *code = if is_marked(*code) {
                UNKNOWN_UNTRUSTED
            } else {
                UNKNOWN_TRUSTED
            };
        }
    }
    codes
}

/// Puts one to three bytes that are no codes into a list, unless it is empty. Often
/// they are next to a code, or become one when their high bits are lost.
pub fn spoil(random: &mut Random, codes: &mut [u8]) {
    spoil_by(random, codes, |random| {
        let any = random.between(7, 255) as u8;
        random.pick(&[5, 5, 7, 7, 8, 132, 255, any])
    });
}

/// The codes with every unknown one filled at random: 0 or 1 for 4, and 2 or 3 for 6.
pub fn filled(random: &mut Random, codes: &[u8]) -> Vec<u8> {
    let mut bytes = codes.to_vec();
    let draws = random.bytes(codes.len());
    for (byte, draw) in bytes.iter_mut().zip(draws) {
        match *byte {
            UNKNOWN_TRUSTED => *byte = draw % 2,
            UNKNOWN_UNTRUSTED => *byte = 2 + draw % 2,
            _ => {}
        }
    }
    bytes
}

/// The first index at which a code does not speak of a byte: it has another value,
/// or the byte is marked and the code is not, or it is no code. The lists are equally
/// long.
pub fn first_uncovered(codes: &[u8], bytes: &[u8]) -> Option<usize> {
    assert_eq!(codes.len(), bytes.len());
    (0..codes.len()).find(|index| !covers(codes[*index], bytes[*index]))
}

fn covers(code: u8, byte: u8) -> bool {
    let has_value = value(code).map_or(true, |known| known == byte % 2);
    is_code(code) && has_value && (is_marked(code) || !is_marked(byte))
}
