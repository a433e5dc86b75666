//! Bytes of rows, states and buffers: good ones, bad ones, wrong lengths.

use crate::random::Random;

/// Bytes 0 to 3. The share of marks is drawn for the whole list.
pub fn tracked(random: &mut Random, length: usize) -> Vec<u8> {
    let mut bytes = random.bytes(length);
    let share = random.pick(&[0, 1, 4, 8, 8, 8, 12, 15, 16]);
    for byte in &mut bytes {
        let marked = usize::from(*byte / 16) < share;
        *byte = *byte % 2 + 2 * u8::from(marked);
    }
    bytes
}

/// A list that agrees with another in marks and unmarked values: each 2 or 3
/// may become the other of the two.
pub fn agreeing(random: &mut Random, bytes: &[u8]) -> Vec<u8> {
    let flips = random.bytes(bytes.len());
    let mut agreeing = bytes.to_vec();
    for (byte, flip) in agreeing.iter_mut().zip(flips) {
        if *byte == 2 || *byte == 3 {
            *byte = 2 + flip % 2;
        }
    }
    agreeing
}

/// Two bytes agree if they are equal or one is 2 and the other 3.
pub fn agree(one: u8, other: u8) -> bool {
    one == other || (one == 2 && other == 3) || (one == 3 && other == 2)
}

/// The first index at which two lists of equal length do not agree.
pub fn first_disagreement(one: &[u8], other: &[u8]) -> Option<usize> {
    assert_eq!(one.len(), other.len());
    (0..one.len()).find(|index| !agree(one[*index], other[*index]))
}

/// A length that is not the right one.
pub fn wrong_length(random: &mut Random, right: usize) -> usize {
    let wrong = match random.below(6) {
        0 => 0,
        1 => right.saturating_sub(1),
        2 => right + 1,
        3 => 2 * right,
        4 => right / 2,
        _ => random.below(200),
    };
    if wrong == right {
        right + 1
    } else {
        wrong
    }
}

/// Gives a list a wrong length. Bytes that are added are good ones.
pub fn resize(random: &mut Random, bytes: &mut Vec<u8>) {
    let length = wrong_length(random, bytes.len());
    while bytes.len() < length {
        bytes.push(random.below(4) as u8);
    }
    bytes.truncate(length);
}

/// Puts one to three bytes above 3 into a list, unless it is empty.
pub fn spoil(random: &mut Random, bytes: &mut [u8]) {
    spoil_by(random, bytes, |random| {
        let any = random.between(4, 255) as u8;
        random.pick(&[4, 5, 6, 128, 255, any])
    });
}

/// Puts one to three bad bytes into a list, unless it is empty: at the first,
/// the middle, the last or any index.
pub fn spoil_by(random: &mut Random, bytes: &mut [u8], bad: fn(&mut Random) -> u8) {
    if bytes.is_empty() {
        return;
    }
    for _ in 0..random.between(1, 3) {
        let index = match random.below(4) {
            0 => 0,
            1 => bytes.len() / 2,
            2 => bytes.len() - 1,
            _ => random.below(bytes.len()),
        };
        bytes[index] = bad(random);
    }
}
