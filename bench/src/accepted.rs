//! Images that are known to be accepted, as those are that this program makes.

use tracker::Image;

/// An accepted image, to be read.
#[inline]
pub fn accepted(image: &[u8]) -> Image<'_> {
    Image::of(image).expect("an image of the right length")
}
