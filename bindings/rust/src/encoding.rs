//! Images from nets.

use crate::{image_length, Net, Sizes};

/// The image of a list of nets, with the sizes that they have.
///
/// Nothing is checked: whether the image is a netlist is for
/// [`check`](crate::check) to say.
///
/// # Panics
///
/// There are more than 65,535 nets.
///
/// ```
/// use tracker::{check, encode, kinds, Net};
///
/// let image = encode(&[Net::new(kinds::CONST, 1, 0, 0)]);
/// assert_eq!(image, [1, 0, 0, 0, 0, 0, 0, 0, 0, 1, 0, 0, 0, 0, 0]);
/// assert_eq!(check(&image), Ok(()));
/// ```
#[must_use]
pub fn encode(nets: &[Net]) -> Vec<u8> {
    encode_with(Sizes::of(nets), nets)
}

/// The image of a list of nets, with these sizes at its head, right or wrong.
///
/// # Panics
///
/// A size is above 65,535.
///
/// ```
/// use tracker::{check, encode_with, kinds, Net, Reason, Refusal, Sizes};
///
/// // One CONST, and an image that says that it has an INPUT.
/// let nets = [Net::new(kinds::CONST, 0, 0, 0)];
/// let sizes = Sizes { inputs: 1, ..Sizes::of(&nets) };
/// let refusal = Refusal { reason: Reason::Counts, place: 0 };
/// assert_eq!(check(&encode_with(sizes, &nets)), Err(refusal));
/// ```
#[must_use]
pub fn encode_with(sizes: Sizes, nets: &[Net]) -> Vec<u8> {
    let mut image = Vec::with_capacity(image_length(nets.len()));
    image.extend(sizes.to_bytes());
    image.extend(nets.iter().map(|net| net.kind));
    let operands = nets.iter().flat_map(|net| net.operands);
    image.extend(operands.flat_map(u16::to_le_bytes));
    image
}
