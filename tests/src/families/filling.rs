//! Static runs beside runs that fill their unknowns, cycle by cycle: a property of
//! the library alone.

use crate::call::Call;
use crate::case::Case;
use crate::codes::{self, first_uncovered};
use crate::coding::number_of;
use crate::counts::Counts;
use crate::cycles::few;
use crate::drawing;
use crate::failure::{Failure, Outcome};
use crate::netlists;
use crate::states;
use crate::waking::{static_power_up, waking};
use tracker::{encode, Image};

/// A state of codes, and states of runs that fill its unknowns, with their counts.
struct States {
    codes: Vec<u8>,
    filled: [Vec<u8>; 2],
}

pub fn run(case: &mut Case) -> Outcome {
    let nets = netlists::mostly_small(&mut case.random, 100);
    let (counts, image) = (Counts::of(&nets), encode(&nets));
    let mut states = starting(case, &image, &counts)?;
    for _ in 0..case.random.pick(&[1, 2, 2, 3]) {
        states = runs(case, &image, &counts, states)?;
    }
    Ok(())
}

/// The state of static power-up, and two with which the netlist may wake; or any
/// state of codes, and two that fill it.
fn starting(case: &mut Case, image: &[u8], counts: &Counts) -> Result<States, Box<Failure>> {
    if case.random.chance(1, 2) {
        let read = Image::of(image).expect("an image of the right length");
        return Ok(States {
            codes: static_power_up(case, image, counts.registers)?,
            filled: [(); 2].map(|()| waking(&mut case.random, read)),
        });
    }
    let codes = codes::draw(&mut case.random, counts.registers);
    let filled = [(); 2].map(|()| states::of(&codes::filled(&mut case.random, &codes)));
    Ok(States { codes, filled })
}

/// Makes a static run, and beside it two runs that fill its unknowns. Gives the
/// states that they left.
fn runs(
    case: &mut Case,
    image: &[u8],
    counts: &Counts,
    states: States,
) -> Result<States, Box<Failure>> {
    let k = few(&mut case.random);
    let mut run = drawing::static_run(&mut case.random, counts, k, &states.codes);
    let answer = case.ask(image, &mut run)?;
    if number_of(answer) != 0 {
        return Err(case.broken(image, &run, answer, "a static run on codes is accepted"));
    }
    let mut filled = states.filled;
    for state in &mut filled {
        let rows = codes::filled(&mut case.random, &run.rows);
        let outputs = case.random.bytes(k * counts.outputs);
        let mut beside = Call::run(k, state.clone(), rows, outputs);
        let concrete = case.ask(image, &mut beside)?;
        if let Some(property) = uncovered(&run, answer, &beside, concrete) {
            return Err(case.broken(image, &beside, concrete, property));
        }
        *state = beside.state;
    }
    Ok(States {
        codes: run.state,
        filled,
    })
}

/// What a static run says of a run that fills its unknowns, but does not hold.
///
/// A first flow is the smaller, the earlier its cycle and the lower its net, and a
/// clear answer is larger than all flows. So a run that fills the unknowns of a
/// clear static run must be clear, and otherwise its first flow must not come before
/// that of the static run.
fn uncovered(run: &Call, answer: u64, beside: &Call, concrete: u64) -> Option<String> {
    if number_of(concrete) != 0 || concrete < answer {
        let text = format!("its first flow is not before that of the static run, {answer:#x}");
        return Some(text);
    }
    if let Some(index) = first_uncovered(&run.filled, &beside.filled) {
        let code = run.filled[index];
        return Some(format!("output byte {index} is as the code {code} says"));
    }
    let index = first_uncovered(&run.state, states::registers(&beside.state))?;
    let code = run.state[index];
    Some(format!("state byte {index} is as the code {code} says"))
}
