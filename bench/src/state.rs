//! States: the bytes of the registers, and behind them their count, how many of them
//! are marked, as two bytes, the low one first.

/// How many bytes are marked.
pub fn count_marked(bytes: &[u8]) -> usize {
    bytes.iter().map(|byte| usize::from(byte >> 1 & 1)).sum()
}

/// The registers of a state and the bytes of its count.
pub fn parts(state: &mut [u8]) -> (&mut [u8], &mut [u8]) {
    state.split_at_mut(state.len() - 2)
}

/// Writes the count of these registers.
pub fn put_count(registers: &[u8], count: &mut [u8]) {
    count.copy_from_slice(&(count_marked(registers) as u16).to_le_bytes());
}
