//! States: the bytes of the registers, and then their count, how many of them are
//! marked, as two bytes, the low one first. A state of static calls has no count.

use crate::bytes::{self, tracked};
use crate::random::Random;

/// The bytes of the count.
const COUNT: usize = 2;

/// The length of a state of so many registers.
pub fn length(registers: usize) -> usize {
    registers + COUNT
}

/// The bytes with mark 1.
pub fn marked(registers: &[u8]) -> usize {
    registers.iter().filter(|byte| **byte / 2 % 2 == 1).count()
}

/// The state with these register bytes and their count.
pub fn of(registers: &[u8]) -> Vec<u8> {
    let mut state = registers.to_vec();
    state.extend([0; COUNT]);
    put_count(&mut state, marked(registers));
    state
}

/// A state of so many registers with bytes 0 to 3 and their count.
pub fn draw(random: &mut Random, registers: usize) -> Vec<u8> {
    of(&tracked(random, registers))
}

/// The register bytes of a state, which has a count.
pub fn registers(state: &[u8]) -> &[u8] {
    &state[..state.len() - COUNT]
}

/// The count that a state holds, whether it is right or not.
pub fn count(state: &[u8]) -> usize {
    let [low, high] = [2, 1].map(|behind| usize::from(state[state.len() - behind]));
    low + 256 * high
}

/// A state has a count, and it is that of its register bytes.
pub fn is_counted(state: &[u8]) -> bool {
    state.len() >= COUNT && count(state) == marked(registers(state))
}

/// Sets the count of a state.
pub fn put_count(state: &mut [u8], count: usize) {
    let at = state.len() - COUNT;
    state[at] = (count % 256) as u8;
    state[at + 1] = (count / 256) as u8;
}

/// Gives a state a wrong count: one more or less, that of all registers or of none,
/// with the bytes swapped, with another high byte, or any. A state that is too short
/// to have one stays as it is.
pub fn put_wrong_count(random: &mut Random, state: &mut [u8]) {
    if state.len() < COUNT {
        return;
    }
    let right = marked(registers(state));
    let any = random.below(65_536);
    let wrong = random.pick(&[
        right + 1,
        right.saturating_sub(1),
        0,
        state.len() - COUNT,
        right % 256 * 256 + right / 256,
        right ^ 256,
        65_535,
        any,
    ]);
    put_count(state, if wrong == right { right + 1 } else { wrong });
}

/// Gives a state a wrong length, often that of its registers alone.
pub fn resize(random: &mut Random, state: &mut Vec<u8>) {
    if random.chance(1, 3) && state.len() >= COUNT {
        state.truncate(state.len() - COUNT);
    } else {
        bytes::resize(random, state);
    }
}

/// A state that agrees with another one of so many registers: their register bytes
/// agree, and the bytes behind them are equal. Either may have a wrong length.
pub fn agreeing(random: &mut Random, registers: usize, state: &[u8]) -> Vec<u8> {
    let (bytes, rest) = state.split_at(registers.min(state.len()));
    [&bytes::agreeing(random, bytes)[..], rest].concat()
}

/// The first index at which two equally long states of so many registers do not
/// agree: behind the registers, bytes agree only if they are equal.
pub fn first_disagreement(registers: usize, one: &[u8], other: &[u8]) -> Option<usize> {
    let registers = registers.min(one.len());
    bytes::first_disagreement(&one[..registers], &other[..registers])
        .or_else(|| (registers..one.len()).find(|index| one[*index] != other[*index]))
}
