//! What is measured.

use crate::call::Call;

/// Something that runs an image.
#[derive(Clone, Copy)]
pub struct Peer {
    pub name: &'static str,
    pub run: fn(Call) -> u64,
}
