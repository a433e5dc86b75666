//! Images with planned faults, each refusal 1 to 8 at the first, the last, the
//! middle and any net, alone and with others beside it, and images with a pin that
//! is only just good.

use crate::call::Call;
use crate::case::Case;
use crate::counts::Counts;
use crate::drawing;
use crate::failure::Outcome;
use crate::faults::{damaged, Fault};
use crate::netlists;
use crate::states;

/// The first fault follows from the seed: its number goes through 0 to 8, and
/// its net through four places.
pub fn run(case: &mut Case) -> Outcome {
    let nets = netlists::mostly_small(&mut case.random, 40);
    let number = (case.seed % 9) as usize;
    let net = place(case, nets.len(), case.seed / 9 % 4);
    let mut faults = vec![Fault { number, net }];
    for _ in 0..case.random.pick(&[0, 0, 1, 1, 2, 3]) {
        let number = case.random.between(1, 8);
        let class = case.random.number() % 4;
        let net = place(case, nets.len(), class);
        faults.push(Fault { number, net });
    }
    let image = damaged(&mut case.random, &nets, &faults);
    case.compare(&image, &mut Call::check())?;
    case.compare_figures(&image)?;
    let counts = Counts::of(&nets);
    let state = states::draw(&mut case.random, counts.registers);
    let mut other = drawing::any(&mut case.random, &counts, &state);
    if case.random.chance(1, 4) {
        drawing::put_fault(&mut case.random, &counts, &mut other, true);
    }
    case.compare(&image, &mut other)?;
    Ok(())
}

/// A net: the first, the last, the middle one or any.
fn place(case: &mut Case, size: usize, class: u64) -> usize {
    match class {
        0 => 0,
        1 => size - 1,
        2 => size / 2,
        _ => case.random.below(size),
    }
}
