//! The peer in C (c/pages.c), which clang compiles where it is there.

use super::Lent;
use tracker::Sizes;

extern "C" {
    fn write_pages(image: *const u8, k: usize, record: *const u8, page: *mut u8);
}

/// The pages of an accepted call.
pub fn write(lent: Lent, _: Sizes) {
    let (image, record) = (lent.image.as_ptr(), lent.record.as_ptr());
    // SAFETY: the image and the lengths of the record and of the page have been
    // accepted.
    unsafe { write_pages(image, lent.k, record, lent.page.as_mut_ptr()) };
}
