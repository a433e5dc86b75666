//! Small good netlists: all calls with right lengths.

use crate::call::Call;
use crate::case::Case;
use crate::counts::Counts;
use crate::cycles::few;
use crate::drawing;
use crate::failure::Outcome;
use crate::figures::compare_doubling;
use crate::netlists;
use crate::pages;
use crate::states;
use tracker::{encode, Net};

pub fn run(case: &mut Case) -> Outcome {
    let nets = netlists::small(&mut case.random);
    let k = few(&mut case.random);
    calls(case, &nets, k)
}

/// Checks a netlist, powers it up, steps and runs from there, steps and runs
/// from any state, asks for its figures, doubles it, and writes pages.
pub fn calls(case: &mut Case, nets: &[Net], k: usize) -> Outcome {
    let counts = Counts::of(nets);
    let image = encode(nets);
    case.compare(&image, &mut Call::check())?;
    let mut powered = Call::power_up(case.random.bytes(states::length(counts.registers)));
    case.compare(&image, &mut powered)?;
    cycles(case, &image, &counts, k, powered.state)?;
    let state = states::draw(&mut case.random, counts.registers);
    cycles(case, &image, &counts, k, state)?;
    compare_doubling(case, &image, &counts)?;
    let mut page = pages::any(&mut case.random, &counts);
    case.compare(&image, &mut page)?;
    Ok(())
}

/// Some steps and then a run, with one state.
fn cycles(case: &mut Case, image: &[u8], counts: &Counts, k: usize, state: Vec<u8>) -> Outcome {
    let mut state = state;
    for _ in 0..3 {
        let mut step = drawing::step(&mut case.random, counts, &state);
        case.compare(image, &mut step)?;
        state = step.state;
    }
    let mut run = drawing::run(&mut case.random, counts, k, &state);
    case.compare(image, &mut run)?;
    Ok(())
}
