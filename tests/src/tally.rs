//! Counts of what was tried, so that a test can ask whether it tried enough.

use std::fmt;

use crate::bits::Bits;
use crate::call::Call;
use crate::coding::{number_of, place_of, CLEAR};
use crate::counted::Counted;
use crate::exactness::Exactness;
use crate::name::{Name, NAMES};
use crate::paged::Paged;
use crate::places::class;
use crate::unknowns::Unknowns;

/// The counts of all calls that went well.
#[derive(Default)]
pub struct Tally {
    /// Calls that were compared with the reference.
    pub compared: u64,
    /// Calls whose outcome was used for a property of the library alone.
    pub alone: u64,
    /// Calls by the number of their refusal; index 0 counts the accepted ones.
    pub numbers: [u64; 21],
    /// Refusals 4 to 7, 11 and 13 by their place: first, last, between.
    pub places: [[u64; 3]; 21],
    /// Accepted calls, in the order of `Name`.
    pub accepted: [u64; NAMES],
    /// Accepted steps and runs that answered with a flow.
    pub flows: u64,
    /// Inverted pins, and top bits that were refused.
    pub bits: Bits,
    /// Counts of marked registers.
    pub counted: Counted,
    /// Static calls.
    pub unknowns: Unknowns,
    /// Calls that write pages.
    pub paged: Paged,
    /// Nets whose marks were held against what changes them.
    pub exactness: Exactness,
}

impl Tally {
    pub fn calls(&self) -> u64 {
        self.compared + self.alone
    }

    /// Counts a call by its answer.
    pub fn note(&mut self, image: &[u8], call: &Call, answer: u64) {
        let number = number_of(answer) as usize;
        self.numbers[number] += 1;
        self.bits.note(image, call.name, answer);
        self.counted.note(image, call, answer);
        self.unknowns.note(call, answer);
        self.paged.note(image, call, answer);
        if number == 0 {
            self.note_accepted(call.name, answer);
        } else if let Some(length) = length_of_places(image, call, number) {
            self.places[number][class(place_of(answer), length)] += 1;
        }
    }

    fn note_accepted(&mut self, name: Name, answer: u64) {
        self.accepted[name as usize] += 1;
        if matches!(name, Name::Step | Name::Run) && answer % 65_536 != CLEAR {
            self.flows += 1;
        }
    }
}

impl fmt::Display for Tally {
    fn fmt(&self, f: &mut fmt::Formatter) -> fmt::Result {
        let (all, alone) = (self.calls(), self.alone);
        writeln!(f, "{all} calls, {alone} of them for properties alone")?;
        for (number, count) in self.numbers.iter().enumerate().skip(1) {
            let [first, last, between] = self.places[number];
            write!(f, "refusal {number:>2} {count:>9}")?;
            if first + last + between > 0 {
                write!(f, ": first {first}, last {last}, between {between}")?;
            }
            writeln!(f)?;
        }
        let [check, power_up, step, run, size, kind, double, static_power_up, static_run, page] =
            self.accepted;
        writeln!(
            f,
            "accepted: check {check}, power-up {power_up}, step {step}, run {run}, \
             doubled size {size}, doubled kind {kind}, double {double}, \
             static power-up {static_power_up}, static run {static_run}, page {page}"
        )?;
        writeln!(f, "steps and runs with a flow: {}", self.flows)?;
        writeln!(f, "{}", self.counted)?;
        writeln!(f, "{}", self.unknowns)?;
        writeln!(f, "{}", self.paged)?;
        write!(f, "{}", self.exactness)
    }
}

/// How many places a refusal has to choose from. Only 4 to 7, 11 and 13 have a
/// place, and 11 is for registers alone.
fn length_of_places(image: &[u8], call: &Call, number: usize) -> Option<usize> {
    match number {
        4..=7 => tracker::sizes(image).map(|sizes| sizes.nets),
        11 => tracker::sizes(image).map(|sizes| sizes.registers),
        13 => Some(call.rows.len()),
        _ => None,
    }
}
