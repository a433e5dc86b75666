//! All good netlists of 1, 2 and 3 nets, with each pin inverted or not. Each is
//! stepped from all states on all rows, run, and run statically from static power-up.
//! Then the pages of a record are written, its figures are asked for, and it is
//! doubled.

use crate::all::{all_bytes, chosen, Pins};
use crate::call::Call;
use crate::case::Case;
use crate::counts::Counts;
use crate::drawing;
use crate::failure::Outcome;
use crate::figures::compare_doubling;
use crate::pages;
use crate::states;
use tracker::{encode, Net};

/// The numbers of netlists of one, two and three nets: for each net as many
/// factors as there are good nets with its number.
const ONE: u64 = 9;
const TWO: u64 = 15 * 41;
const THREE: u64 = 21 * 47 * 145;

pub const CASES: u64 = ONE + TWO + THREE;

/// From one case to the next the place goes on by so much, so that the first
/// thousands of cases have nets of all kinds. It has no factor in common with the
/// number of cases, so that all places are reached.
const STRIDE: u64 = 10_007;

pub fn run(case: &mut Case) -> Outcome {
    let nets = netlist(case.seed % CASES * STRIDE % CASES);
    let counts = Counts::of(&nets);
    let image = encode(&nets);
    case.compare(&image, &mut Call::check())?;
    let mut powered = Call::power_up(case.random.bytes(states::length(counts.registers)));
    case.compare(&image, &mut powered)?;
    for registers in all_bytes(counts.registers) {
        let state = states::of(&registers);
        for row in all_bytes(counts.inputs) {
            let buffer = case.random.bytes(counts.nets);
            let mut step = Call::step(state.clone(), row, buffer);
            case.compare(&image, &mut step)?;
        }
        let mut run = drawing::run(&mut case.random, &counts, 4, &state);
        case.compare(&image, &mut run)?;
    }
    let mut powered = Call::static_power_up(case.random.bytes(counts.registers));
    case.compare(&image, &mut powered)?;
    let mut run = drawing::static_run(&mut case.random, &counts, 4, &powered.state);
    case.compare(&image, &mut run)?;
    let mut page = pages::any(&mut case.random, &counts);
    case.compare(&image, &mut page)?;
    compare_doubling(case, &image, &counts)
}

/// The netlist with this place among all of them.
fn netlist(place: u64) -> Vec<Net> {
    let mut place = place;
    for (size, ways) in [(1, ONE), (2, TWO), (3, THREE)] {
        if place < ways {
            return chosen(Pins::Both, place, ways, size, size);
        }
        place -= ways;
    }
    unreachable!("the place is below the number of netlists")
}
