//! The netlists and records that pages are written of.

use super::{Lent, Writer};
use crate::generate::rows;
use tracker::kinds::{INPUT, NOT, OUT};
use tracker::{encode, page_length, Net};

/// The nets and the outputs of the netlists. With 4,096 outputs the bytes of one output
/// share a set of the processor's first cache, and 8,191 outputs are the most that a
/// netlist has. The check of the last netlist takes long beside its pages.
const NETLISTS: [(usize, usize); 8] = [
    (2, 1),
    (9, 8),
    (101, 100),
    (1001, 1000),
    (4097, 4096),
    (8001, 8000),
    (8192, 8191),
    (8192, 8),
];

/// The numbers of cycles. The last page of 130 cycles shows two, and 4,096 are the
/// most that a call takes.
pub const CYCLES: [usize; 3] = [64, 130, 4096];

/// The seed of the records.
const SEED: u64 = 5;

/// A case: its nets, its outputs and its cycles.
#[derive(Clone, Copy)]
pub struct Case {
    pub nets: usize,
    pub outputs: usize,
    pub k: usize,
}

/// All cases with these numbers of cycles.
pub fn cases(cycles: &[usize]) -> impl Iterator<Item = Case> + '_ {
    let case = |(nets, outputs), k| Case { nets, outputs, k };
    NETLISTS
        .into_iter()
        .flat_map(move |netlist| cycles.iter().map(move |k| case(netlist, *k)))
}

impl Case {
    /// What the case is called in print.
    pub fn name(self) -> String {
        let Case { nets, outputs, k } = self;
        format!("N = {nets}, O = {outputs}, K = {k}")
    }

    /// The signs of all its pages.
    pub fn signs(self) -> usize {
        self.outputs * self.k
    }
}

/// A netlist with a record of k cycles.
pub struct Bytes {
    pub image: Vec<u8>,
    pub k: usize,
    pub record: Vec<u8>,
    length: usize,
}

impl Bytes {
    /// The bytes of a case: an INPUT, NOTs where there are nets left, and the OUTs; and
    /// a random record, a quarter of it marked.
    pub fn of(case: Case) -> Bytes {
        let mut nets = vec![Net::new(INPUT, 0, 0, 0)];
        nets.resize(case.nets - case.outputs, Net::new(NOT, 0, 0, 0));
        nets.resize(case.nets, Net::new(OUT, 0, 0, 0));
        Bytes::with_image(encode(&nets), case.outputs, case.k, SEED)
    }

    /// An image of so many outputs with a random record of k cycles.
    pub fn with_image(image: Vec<u8>, outputs: usize, k: usize, seed: u64) -> Bytes {
        Bytes {
            image,
            k,
            record: rows(k * outputs, seed),
            length: page_length(k, outputs),
        }
    }

    /// Room for all pages, filled with a byte.
    pub fn page(&self, byte: u8) -> Vec<u8> {
        vec![byte; self.length]
    }

    /// A call of the library or a peer.
    pub fn write(&self, writer: Writer, page: &mut [u8]) -> u64 {
        (writer.page)(Lent {
            image: &self.image,
            k: self.k,
            record: &self.record,
            page,
        })
    }
}
