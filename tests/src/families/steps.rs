//! A run of k cycles leaves what k steps leave: a property of the library
//! alone.

use crate::case::Case;
use crate::counts::Counts;
use crate::cycles::few;
use crate::drawing;
use crate::failure::Outcome;
use crate::netlists;
use crate::replay::{same_as_run, steps};
use crate::states;
use crate::waking::power_up;
use tracker::encode;

pub fn run(case: &mut Case) -> Outcome {
    let nets = netlists::mostly_small(&mut case.random, 100);
    let counts = Counts::of(&nets);
    let image = encode(&nets);
    let mut state = states::draw(&mut case.random, counts.registers);
    if case.random.chance(1, 2) {
        state = power_up(case, &image, counts.registers)?;
    }
    let k = few(&mut case.random);
    let mut run = drawing::run(&mut case.random, &counts, k, &state);
    let answer = case.ask(&image, &mut run)?;
    let cycles = steps(case, &image, &counts, k, &state, &run.rows)?;
    same_as_run(case, &image, &counts, &run, answer, &state, &cycles)
}
