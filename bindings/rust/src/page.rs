//! The pages of a run's outputs.

use crate::{answers, ffi, Refusal};

/// The cycles that a page shows. The last page may show fewer.
const PAGE_CYCLES: usize = 64;

/// The bytes of a line: 70 characters and a newline.
const LINE: usize = 71;

/// The length in bytes of all pages of K cycles and so many outputs.
///
/// There is a page for each 64 cycles and for those that are left, and each has
/// a heading and a line per output, of 71 bytes each.
///
/// # Panics
///
/// In a debug build, K or the outputs are so large that the length is no
/// `usize`. For a K of at most [`MOST_CYCLES`](crate::MOST_CYCLES) and the outputs
/// of an image it always is one.
///
/// ```
/// use tracker::page_length;
///
/// assert_eq!(page_length(0, 3), 0);
/// assert_eq!(page_length(64, 3), 4 * 71);
/// assert_eq!(page_length(65, 3), 2 * 4 * 71);
/// assert_eq!(page_length(65, 0), 2 * 71);
/// ```
#[inline]
#[must_use]
pub const fn page_length(k: usize, outputs: usize) -> usize {
    (k + PAGE_CYCLES - 1) / PAGE_CYCLES * (1 + outputs) * LINE
}

/// Writes the pages of a record, which is the K × O output bytes of a
/// [`run`](crate::run): cycle after cycle, and each cycle in output order.
///
/// K is at most [`MOST_CYCLES`](crate::MOST_CYCLES), and `page` has exactly
/// [`page_length`]`(K, O)` bytes.
///
/// A page shows 64 cycles, and the last one those that are left. It is a heading
/// line and a line per output, in output order, each 70 characters and a newline:
///
/// | columns | heading | line of an output |
/// |---|---|---|
/// | 1 to 5 | the word `cycle` | the OUT's own net number, set right |
/// | 6 | blank | blank |
/// | 7 to 70 | the number of the page's first cycle, set left | one sign per cycle: `0`, `1`, and `l`, `h` for untrusted 0, 1 |
///
/// Unused columns are blank. K = 0 gives no page, and O = 0 gives headings alone.
///
/// # Errors
///
/// Turns back with one of the refusals 1 to 9, 13, 14 and 19. They are tried in
/// this order; 13 is for the record's first byte above 3, whatever the record's
/// length. An index of 2^32 − 1 or more is given as 2^32 − 1.
///
/// # Example
///
/// ```
/// use tracker::{encode, kinds, page, page_length, run, Net};
///
/// // An INPUT, and a protected OUT on it.
/// let image = encode(&[Net::new(kinds::INPUT, 0, 0, 0), Net::new(kinds::OUT, 0, 1, 0)]);
/// let mut record = [0; 3];
/// let _ = run(&image, 3, &mut [0, 0], &[0, 3, 1], &mut record)?;
/// let mut text = vec![0; page_length(3, 1)];
/// page(&image, 3, &record, &mut text)?;
/// assert_eq!(text, format!("cycle {:<64}\n    1 {:<64}\n", "0", "0h1").as_bytes());
/// # Ok::<(), tracker::Refusal>(())
/// ```
pub fn page(image: &[u8], k: usize, record: &[u8], page: &mut [u8]) -> Result<(), Refusal> {
    answers::done(ffi::page(image, k, record, page))
}
