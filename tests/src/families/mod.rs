//! The families of cases. Each has one function that makes the calls of a case,
//! from the random numbers of its seed.

mod counting;
mod damaged;
mod doubling;
mod exact;
mod exhaustive;
mod extreme;
mod filling;
mod four_nets;
mod good;
mod known;
mod large;
mod lent;
mod lists;
mod noise;
mod operands;
mod page_texts;
mod pairing;
mod static_gates;
mod static_runs;
mod steps;
mod two_runs;

use crate::case::Case;
use crate::failure::Outcome;

pub struct Family {
    pub name: &'static str,
    /// The driver runs the seeds 0 to cases - 1. Any other seed is a case too.
    pub cases: u64,
    pub run: fn(&mut Case) -> Outcome,
}

/// All families. The last six try properties of the library alone.
#[rustfmt::skip]
pub static FAMILIES: [Family; 21] = [
    Family { name: "exhaustive", cases: exhaustive::CASES, run: exhaustive::run },
    Family { name: "four_nets", cases: four_nets::CASES, run: four_nets::run },
    Family { name: "operands", cases: operands::CASES, run: operands::run },
    Family { name: "good", cases: 40_000, run: good::run },
    Family { name: "large", cases: 2000, run: large::run },
    Family { name: "extreme", cases: extreme::CASES, run: extreme::run },
    Family { name: "damaged", cases: 120_000, run: damaged::run },
    Family { name: "noise", cases: 150_000, run: noise::run },
    Family { name: "lent", cases: 120_000, run: lent::run },
    Family { name: "lists", cases: 30_000, run: lists::run },
    Family { name: "doubling", cases: 8_000, run: doubling::run },
    Family { name: "static_gates", cases: static_gates::CASES, run: static_gates::run },
    Family { name: "static_runs", cases: 15_000, run: static_runs::run },
    Family { name: "page_texts", cases: 30_000, run: page_texts::run },
    Family { name: "counting", cases: 20_000, run: counting::run },
    Family { name: "pairing", cases: 20_000, run: pairing::run },
    Family { name: "two_runs", cases: 20_000, run: two_runs::run },
    Family { name: "steps", cases: 40_000, run: steps::run },
    Family { name: "exact", cases: 150_000, run: exact::run },
    Family { name: "filling", cases: 20_000, run: filling::run },
    Family { name: "known", cases: 20_000, run: known::run },
];

/// The family with this name.
pub fn named(name: &str) -> Option<&'static Family> {
    FAMILIES.iter().find(|family| family.name == name)
}
