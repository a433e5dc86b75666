//! The two lists made again on the doubled netlist: its plain values.

use super::List;
use crate::call::Call;
use crate::case::Case;
use crate::coding::number_of;
use crate::doubled::{split, Doubled};
use crate::failure::{Failure, Outcome};
use crate::name::Name;

/// Makes two accepted calls again on the doubled netlist. In each cycle the
/// values at output 2j + 1 are equal in both, and where these are 0, the values
/// at output 2j are equal too.
pub fn calls_agree(
    case: &mut Case,
    doubled: &Doubled,
    calls: &[Call; 2],
    lists: &mut [List; 2],
) -> Outcome {
    let mut both = Vec::new();
    for (call, list) in calls.iter().zip(lists) {
        both.push(outputs(case, doubled, call, &mut list.doubled_state)?);
    }
    for (one, other) in both[0].chunks(2).zip(both[1].chunks(2)) {
        let marks_are_equal = one[1] % 2 == other[1] % 2;
        let values_are_equal = one[0] % 2 == other[0] % 2;
        if !marks_are_equal || (one[1] % 2 == 0 && !values_are_equal) {
            let property = "the doubled outputs have equal marks, and equal unmarked values";
            return Err(case.broken(&doubled.image, &calls[1], 0, property));
        }
    }
    Ok(())
}

/// Makes an accepted call again on the doubled netlist, which must accept it
/// too, and gives the output bytes.
fn outputs(
    case: &mut Case,
    doubled: &Doubled,
    call: &Call,
    state: &mut Vec<u8>,
) -> Result<Vec<u8>, Box<Failure>> {
    let counts = &doubled.counts;
    let rows = split(&call.rows);
    let mut beside = match call.name {
        Name::Step => Call::step(state.clone(), rows, case.random.bytes(counts.nets)),
        _ => {
            let outputs = case.random.bytes(call.k * counts.outputs);
            Call::run(call.k, state.clone(), rows, outputs)
        }
    };
    let answer = case.ask(&doubled.image, &mut beside)?;
    if number_of(answer) != 0 {
        let property = "an accepted call is accepted on the doubled netlist";
        return Err(case.broken(&doubled.image, &beside, answer, property));
    }
    *state = beside.state;
    if call.name == Name::Run {
        return Ok(beside.filled);
    }
    let outs = counts.outs.iter();
    Ok(outs.map(|number| beside.filled[*number]).collect())
}
