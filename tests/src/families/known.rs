//! Static calls where nothing is unknown, beside the calls that are not static, whose
//! states have a count: a property of the library alone.

use crate::call::Call;
use crate::case::Case;
use crate::coding::{number_of, place_of};
use crate::counts::Counts;
use crate::cycles::few;
use crate::drawing;
use crate::failure::{Failure, Outcome};
use crate::faults::{damaged, Fault};
use crate::name::Name;
use crate::netlists;
use crate::states;
use tracker::encode;

pub fn run(case: &mut Case) -> Outcome {
    let nets = netlists::mostly_small(&mut case.random, 100);
    let counts = Counts::of(&nets);
    let image = if case.random.chance(1, 8) {
        let number = case.random.between(1, 8);
        let net = case.random.below(nets.len());
        damaged(&mut case.random, &nets, &[Fault { number, net }])
    } else {
        encode(&nets)
    };
    let mut power_up = Call::power_up(case.random.bytes(states::length(counts.registers)));
    if case.random.chance(1, 8) {
        drawing::put_fault(&mut case.random, &counts, &mut power_up, true);
    }
    power_ups(case, &image, &counts, power_up)?;
    let mut state = states::draw(&mut case.random, counts.registers);
    for _ in 0..case.random.between(1, 3) {
        let k = few(&mut case.random);
        let mut run = drawing::run(&mut case.random, &counts, k, &state);
        for _ in 0..case.random.pick(&[0, 0, 0, 1, 2]) {
            drawing::put_fault(&mut case.random, &counts, &mut run, true);
        }
        let left = runs(case, &image, &counts, run)?;
        if left.len() == state.len() && states::registers(&left).iter().all(|byte| *byte < 4) {
            state = left;
        }
    }
    Ok(())
}

/// The state of the static call beside one with this state: its registers. A state that
/// is too short to have a count is refused, and here so is one with a byte too many.
fn without_count(counts: &Counts, state: &[u8]) -> Vec<u8> {
    match state.len() {
        0 | 1 => vec![0; counts.registers + 1],
        _ => states::registers(state).to_vec(),
    }
}

/// Both power-ups answer alike. The static one gives 6 where the other gives 2, and
/// otherwise the same byte.
fn power_ups(case: &mut Case, image: &[u8], counts: &Counts, power_up: Call) -> Outcome {
    let mut power_up = power_up;
    let mut beside = Call::static_power_up(without_count(counts, &power_up.state));
    let answer = case.ask(image, &mut power_up)?;
    let static_answer = case.ask(image, &mut beside)?;
    let mut registers = without_count(counts, &power_up.state);
    if answer == 0 {
        let bytes = registers.iter_mut();
        bytes.filter(|byte| **byte == 2).for_each(|byte| *byte = 6);
    }
    if static_answer != answer || beside.state != registers {
        let property = "a static power-up is the power-up, with 6 for 2";
        return Err(case.broken(image, &beside, static_answer, property));
    }
    Ok(())
}

/// Both runs leave the same bytes and answer alike, but that the static one gives 18
/// where the other gives 11 or 13. Bytes that only the other refuses are not lent, and
/// where it refuses the count, it is made again with the right one. Gives the state that
/// it left.
fn runs(
    case: &mut Case,
    image: &[u8],
    counts: &Counts,
    run: Call,
) -> Result<Vec<u8>, Box<Failure>> {
    let mut run = run;
    let registers = counts.registers.min(run.state.len());
    let bytes = run.state[..registers].iter_mut().chain(&mut run.rows);
    bytes
        .filter(|byte| matches!(**byte, 4 | 6))
        .for_each(|byte| *byte += 1);
    let mut beside = Call {
        name: Name::StaticRun,
        state: without_count(counts, &run.state),
        ..run.clone()
    };
    let mut answer = case.ask(image, &mut run)?;
    if number_of(answer) == 20 {
        run.state = states::of(&beside.state);
        answer = case.ask(image, &mut run)?;
    }
    let expected = match number_of(answer) {
        11 | 13 => (18 << 32) + place_of(answer) as u64,
        _ => answer,
    };
    let static_answer = case.ask(image, &mut beside)?;
    let registers = without_count(counts, &run.state);
    let are_equal = beside.state == registers && beside.filled == run.filled;
    if static_answer != expected || !are_equal {
        let property = "without unknowns a static run is the run";
        return Err(case.broken(image, &beside, static_answer, property));
    }
    Ok(run.state)
}
