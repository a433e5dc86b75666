//! Good netlists: static power-ups, and static runs that hand their state on, with
//! right lengths.

use crate::call::Call;
use crate::case::Case;
use crate::codes;
use crate::counts::Counts;
use crate::cycles::few;
use crate::drawing;
use crate::failure::Outcome;
use crate::netlists;
use tracker::encode;

pub fn run(case: &mut Case) -> Outcome {
    let nets = netlists::mostly_small(&mut case.random, 200);
    let (counts, image) = (Counts::of(&nets), encode(&nets));
    let mut powered = Call::static_power_up(case.random.bytes(counts.registers));
    case.compare(&image, &mut powered)?;
    let any = codes::draw(&mut case.random, counts.registers);
    for state in [powered.state, any] {
        runs(case, &image, &counts, state)?;
    }
    Ok(())
}

/// One to three static runs, each from the state that the one before it left.
fn runs(case: &mut Case, image: &[u8], counts: &Counts, state: Vec<u8>) -> Outcome {
    let mut state = state;
    for _ in 0..case.random.pick(&[1, 1, 2, 3]) {
        let k = few(&mut case.random);
        let mut run = drawing::static_run(&mut case.random, counts, k, &state);
        case.compare(image, &mut run)?;
        state = run.state;
    }
    Ok(())
}
