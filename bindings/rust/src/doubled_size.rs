//! How big the doubled netlist gets.

use crate::kinds::{AND, CONST, INPUT, MUX, NOT, OR, OUT, REG, XOR};

/// How big the doubled netlist gets: its nets, the bytes of its image, and how
/// many of its nets are of each kind.
///
/// The numbers of the nine kinds add up to `nets`.
#[derive(Debug, Clone, Copy, PartialEq, Eq, Hash)]
pub struct DoubledSize {
    /// The nets of the doubled netlist.
    pub nets: usize,
    /// The bytes of the doubled image: the length of the buffer that
    /// [`double`](crate::double) fills.
    pub bytes: usize,
    /// Its CONSTs.
    pub consts: usize,
    /// Its INPUTs, the length of its row.
    pub inputs: usize,
    /// Its REGs, the length of its state.
    pub registers: usize,
    /// Its NOTs.
    pub nots: usize,
    /// Its ANDs.
    pub ands: usize,
    /// Its ORs.
    pub ors: usize,
    /// Its XORs.
    pub xors: usize,
    /// Its MUXes.
    pub muxes: usize,
    /// Its OUTs.
    pub outputs: usize,
}

impl DoubledSize {
    /// The nets of a kind, one of [`kinds`](crate::kinds), or 0 for any other
    /// number.
    ///
    /// ```
    /// use tracker::{doubled_size, encode, kinds, Net};
    ///
    /// // A CONST and a NOT of it become two CONSTs, a NOT and an OR.
    /// let nets = [Net::new(kinds::CONST, 1, 0, 0), Net::new(kinds::NOT, 0, 0, 0)];
    /// let size = doubled_size(&encode(&nets))?;
    /// let kinds: Vec<usize> = (0..=9).map(|kind| size.of_kind(kind)).collect();
    /// assert_eq!(kinds, [2, 0, 0, 1, 0, 1, 0, 0, 0, 0]);
    /// # Ok::<(), tracker::Refusal>(())
    /// ```
    #[must_use]
    pub fn of_kind(&self, kind: u8) -> usize {
        match kind {
            CONST => self.consts,
            INPUT => self.inputs,
            REG => self.registers,
            NOT => self.nots,
            AND => self.ands,
            OR => self.ors,
            XOR => self.xors,
            MUX => self.muxes,
            OUT => self.outputs,
            _ => 0,
        }
    }
}
