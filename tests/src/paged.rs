//! Counts of what was asked of the call that writes pages.

use std::fmt;

use crate::call::Call;
use crate::coding::{number_of, place_of};
use crate::cycles::PAGED;
use crate::name::Name;
use crate::places::class;
use tracker::{sizes, Sizes};

/// Counts of calls for pages that went well.
#[derive(Default)]
pub struct Paged {
    /// Calls by the number of their refusal; index 0 counts the accepted ones.
    pub numbers: [u64; 20],
    /// Calls by k, in the order of `PAGED`: accepted, and for 4,097 refused.
    pub cycles: [u64; PAGED.len()],
    /// Accepted calls by the number of outputs: none, one, more.
    pub outputs: [u64; 3],
    /// Bytes of the records of accepted calls.
    pub bytes: [u64; 4],
    /// Refusals 13 by their place: first, last, between.
    pub places: [u64; 3],
    /// Refusals 13 in a record that is too short, right and too long.
    pub records: [u64; 3],
    /// Refusals 13 at a place that a record of the right length does not have.
    pub behind: u64,
    /// Refusals 14 for a record, and 19, each for a buffer that is too short and one
    /// that is too long.
    pub lengths: [[u64; 2]; 2],
}

impl Paged {
    /// Counts a call by its answer.
    pub fn note(&mut self, image: &[u8], call: &Call, answer: u64) {
        if call.name != Name::Page {
            return;
        }
        let number = number_of(answer) as usize;
        self.numbers[number] += 1;
        match (number, sizes(image)) {
            (0 | 9, Some(sizes)) => self.note_cycles(number, sizes, call),
            (13, Some(sizes)) => self.note_bad(sizes, call, place_of(answer)),
            (14, Some(sizes)) => {
                self.lengths[0][usize::from(call.rows.len() > call.k * sizes.outputs)] += 1;
            }
            (19, Some(sizes)) => {
                let right = tracker::page_length(call.k, sizes.outputs);
                self.lengths[1][usize::from(call.filled.len() > right)] += 1;
            }
            _ => {}
        }
    }

    /// Counts an accepted call, or one whose k is refused.
    fn note_cycles(&mut self, number: usize, sizes: Sizes, call: &Call) {
        if let Some(place) = PAGED.iter().position(|k| *k == call.k) {
            self.cycles[place] += 1;
        }
        if number == 0 {
            self.outputs[sizes.outputs.min(2)] += 1;
            for byte in &call.rows {
                self.bytes[usize::from(*byte % 4)] += 1;
            }
        }
    }

    fn note_bad(&mut self, sizes: Sizes, call: &Call, place: usize) {
        let (length, right) = (call.rows.len(), call.k * sizes.outputs);
        self.places[class(place, length)] += 1;
        self.records[usize::from(length >= right) + usize::from(length > right)] += 1;
        self.behind += u64::from(place >= right);
    }
}

impl fmt::Display for Paged {
    fn fmt(&self, f: &mut fmt::Formatter) -> fmt::Result {
        writeln!(f, "pages by refusal {:?}", self.numbers)?;
        for (k, seen) in PAGED.iter().zip(self.cycles) {
            write!(f, "k {k}: {seen}, ")?;
        }
        let [none, one, more] = self.outputs;
        writeln!(f, "no output {none}, one {one}, more {more}")?;
        let (bytes, [short, right, long]) = (self.bytes, self.records);
        writeln!(
            f,
            "bytes {bytes:?}; bad bytes in a short record {short}, a right one {right}, \
             a long one {long}, of them behind {}; places {:?}",
            self.behind, self.places
        )?;
        write!(
            f,
            "short and long by 14 and by 19: {:?}",
            self.lengths.concat()
        )
    }
}
