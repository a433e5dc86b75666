//! The four sizes at the head of an image.

use crate::kinds::{INPUT, OUT, REG};
use crate::layout::HEAD;
use crate::Net;

/// The four sizes at the head of an image.
#[derive(Debug, Clone, Copy, PartialEq, Eq, Hash)]
pub struct Sizes {
    /// N, the number of nets: the length of a step's net buffer.
    pub nets: usize,
    /// I, the number of inputs: the length of a row.
    pub inputs: usize,
    /// R, the number of registers: a state has R + 2 bytes, or R for a static call.
    pub registers: usize,
    /// O, the number of outputs: a run fills K × O output bytes.
    pub outputs: usize,
}

impl Sizes {
    /// The sizes of a list of nets: how many there are, and how many of them are
    /// INPUTs, REGs and OUTs.
    ///
    /// ```
    /// use tracker::{kinds, Net, Sizes};
    ///
    /// let nets = [Net::new(kinds::INPUT, 0, 0, 0), Net::new(kinds::OUT, 0, 1, 0)];
    /// let expected = Sizes { nets: 2, inputs: 1, registers: 0, outputs: 1 };
    /// assert_eq!(Sizes::of(&nets), expected);
    /// ```
    #[must_use]
    pub fn of(nets: &[Net]) -> Sizes {
        let count = |kind| nets.iter().filter(|net| net.kind == kind).count();
        Sizes {
            nets: nets.len(),
            inputs: count(INPUT),
            registers: count(REG),
            outputs: count(OUT),
        }
    }

    /// The first 8 bytes of an image with these sizes.
    ///
    /// # Panics
    ///
    /// A size above 65,535 has no place in two bytes.
    ///
    /// ```
    /// use tracker::Sizes;
    ///
    /// let sizes = Sizes { nets: 6, inputs: 1, registers: 2, outputs: 256 };
    /// assert_eq!(sizes.to_bytes(), [6, 0, 1, 0, 2, 0, 0, 1]);
    /// ```
    #[must_use]
    pub fn to_bytes(self) -> [u8; 8] {
        let sizes = [self.nets, self.inputs, self.registers, self.outputs];
        let mut bytes = [0; HEAD];
        for (two, size) in bytes.chunks_exact_mut(2).zip(sizes) {
            let size = u16::try_from(size).expect("a size of an image is at most 65,535");
            two.copy_from_slice(&size.to_le_bytes());
        }
        bytes
    }
}

/// Reads the sizes N, I, R and O in the first 8 bytes of an image, or none
/// where it has fewer.
///
/// It does not check the image: the sizes are what these bytes say, also where
/// [`check`](crate::check) refuses the image. Each is at most 65,535.
///
/// ```
/// use tracker::{sizes, Sizes};
///
/// let head = [6, 0, 1, 0, 2, 0, 0, 1];
/// let expected = Sizes { nets: 6, inputs: 1, registers: 2, outputs: 256 };
/// assert_eq!(sizes(&head), Some(expected));
/// assert_eq!(sizes(&head[..7]), None);
/// ```
#[inline]
#[must_use]
pub fn sizes(image: &[u8]) -> Option<Sizes> {
    let head = image.get(..HEAD)?;
    let size = |at: usize| usize::from(u16::from_le_bytes([head[at], head[at + 1]]));
    Some(Sizes {
        nets: size(0),
        inputs: size(2),
        registers: size(4),
        outputs: size(6),
    })
}
