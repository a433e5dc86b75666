//! A call of run, as the library and every peer take it.

use tracker::Sizes;

/// What a run is lent.
pub struct Call<'a> {
    pub image: &'a [u8],
    pub k: usize,
    pub state: &'a mut [u8],
    pub rows: &'a [u8],
    pub outputs: &'a mut [u8],
}

/// The number of a clear verdict.
pub const CLEAR: u64 = 65535;

/// The cycle and the net of the first flow, if there is one.
pub type First = Option<(usize, usize)>;

impl Call<'_> {
    /// The row of a cycle.
    #[inline]
    pub fn row(&self, z: Sizes, cycle: usize) -> &[u8] {
        &self.rows[cycle * z.inputs..][..z.inputs]
    }

    /// The outputs of a cycle.
    #[inline]
    pub fn slot(&mut self, z: Sizes, cycle: usize) -> &mut [u8] {
        &mut self.outputs[cycle * z.outputs..][..z.outputs]
    }
}
