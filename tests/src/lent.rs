//! Buffers that are lent to the library, with guard bytes on either side.

use crate::random::Random;

/// There are at least so many guard bytes on either side.
const LEAST_GUARD: usize = 32;

/// Where a byte stands, seen from a lent buffer.
#[derive(Clone, Copy, Debug, PartialEq, Eq)]
pub enum Spot {
    /// So many bytes before the first lent byte, 1 for the one next to it.
    Before(usize),
    /// The lent byte with this index.
    Inside(usize),
    /// So many bytes behind the last lent byte, 1 for the one next to it.
    After(usize),
}

/// The first byte of a buffer or its guards that is not what it should be.
#[derive(Clone, Copy, Debug, PartialEq, Eq)]
pub struct WrongByte {
    pub buffer: &'static str,
    pub spot: Spot,
    pub is: u8,
    pub expected: u8,
}

/// A part of a larger allocation, together with what its guards held before the
/// call.
pub struct Lent {
    name: &'static str,
    whole: Vec<u8>,
    before: Vec<u8>,
    after: Vec<u8>,
}

impl Lent {
    /// Lays the bytes between guards of random bytes. The guard before them has
    /// a random length, so the buffer starts at any alignment.
    pub fn new(name: &'static str, bytes: &[u8], random: &mut Random) -> Lent {
        let before_length = LEAST_GUARD + random.below(32);
        let before = random.bytes(before_length);
        let after = random.bytes(LEAST_GUARD);
        let mut whole = Vec::with_capacity(before.len() + bytes.len() + after.len());
        whole.extend_from_slice(&before);
        whole.extend_from_slice(bytes);
        whole.extend_from_slice(&after);
        Lent {
            name,
            whole,
            before,
            after,
        }
    }

    /// The pointer to the first lent byte. It comes from a mutable borrow of
    /// the whole allocation, so what a broken library writes anywhere in it is
    /// seen afterwards. It is never null, also where no byte is lent.
    pub fn pointer(&mut self) -> *mut u8 {
        self.whole.as_mut_ptr().wrapping_add(self.before.len())
    }

    pub fn length(&self) -> usize {
        self.whole.len() - self.before.len() - self.after.len()
    }

    /// The lent bytes as they are now.
    pub fn bytes(&self) -> &[u8] {
        let start = self.before.len();
        &self.whole[start..start + self.length()]
    }

    /// The first byte that differs, where the guards should be untouched and
    /// the lent bytes should be `expected`.
    pub fn wrong_byte(&self, expected: &[u8]) -> Option<WrongByte> {
        let start = self.before.len();
        let end = start + self.length();
        let before = |index| Spot::Before(start - index);
        let after = |index| Spot::After(index + 1);
        self.differing(&self.whole[..start], &self.before, before)
            .or_else(|| self.differing(self.bytes(), expected, Spot::Inside))
            .or_else(|| self.differing(&self.whole[end..], &self.after, after))
    }

    /// The first index at which two lists of equal length differ, as a wrong
    /// byte.
    fn differing(
        &self,
        are: &[u8],
        expected: &[u8],
        spot: impl Fn(usize) -> Spot,
    ) -> Option<WrongByte> {
        assert_eq!(are.len(), expected.len());
        if are == expected {
            return None;
        }
        let index = (0..are.len()).find(|index| are[*index] != expected[*index])?;
        Some(WrongByte {
            buffer: self.name,
            spot: spot(index),
            is: are[index],
            expected: expected[index],
        })
    }
}
