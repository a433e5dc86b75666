//! The policy of an output, changed in an image.

use crate::kinds::OUT;
use crate::{operand_place, Image};

/// Makes an OUT of an image protected, or free. No other byte changes, so that an
/// image that [`check`](crate::check) accepts stays one.
///
/// # Panics
///
/// The bytes are not 8 + 7 × N, there is no such net, or it is no OUT. No byte has
/// changed then.
///
/// ```
/// use tracker::{check, protect, Builder, Image};
///
/// let mut builder = Builder::new();
/// let input = builder.input();
/// let output = builder.output(input, false).net();
/// let mut image = builder.image()?;
/// protect(&mut image, output, true);
/// assert!(Image::of(&image).unwrap().is_protected(output));
/// assert_eq!(check(&image), Ok(()));
/// # Ok::<(), tracker::Refusal>(())
/// ```
pub fn protect(image: &mut [u8], output: usize, protected: bool) {
    let read = Image::of(image).expect("an image has 8 + 7 × N bytes");
    assert!(read.kinds()[output] == OUT, "net {output} is no OUT");
    let place = operand_place(read.sizes().nets, output, 1);
    let policy = u16::from(protected).to_le_bytes();
    image[place..place + 2].copy_from_slice(&policy);
}
