//! Many cycles by steps of the library, one at a time.

use crate::call::Call;
use crate::case::Case;
use crate::coding::CLEAR;
use crate::counts::Counts;
use crate::failure::Failure;

/// What one step left.
pub struct Cycle {
    pub verdict: u64,
    pub nets: Vec<u8>,
    pub state: Vec<u8>,
}

/// Makes a step for each of the k rows, from a state. Every step must be
/// accepted.
pub fn steps(
    case: &mut Case,
    image: &[u8],
    counts: &Counts,
    k: usize,
    state: &[u8],
    rows: &[u8],
) -> Result<Vec<Cycle>, Box<Failure>> {
    let mut cycles: Vec<Cycle> = Vec::with_capacity(k);
    let mut state = state.to_vec();
    for number in 0..k {
        let row = &rows[number * counts.inputs..(number + 1) * counts.inputs];
        let buffer = case.random.bytes(counts.nets);
        let mut step = Call::step(state, row.to_vec(), buffer);
        let verdict = case.ask(image, &mut step)?;
        if verdict != CLEAR && !(1..counts.nets as u64).contains(&verdict) {
            return Err(case.broken(image, &step, verdict, "a good step has a verdict"));
        }
        state = step.state.clone();
        cycles.push(Cycle {
            verdict,
            nets: step.filled,
            state: step.state,
        });
    }
    Ok(cycles)
}

/// The bytes of the outputs, cycle after cycle.
pub fn outputs(cycles: &[Cycle], counts: &Counts) -> Vec<u8> {
    let mut outputs = Vec::with_capacity(cycles.len() * counts.outputs);
    for cycle in cycles {
        outputs.extend(counts.outs.iter().map(|number| cycle.nets[*number]));
    }
    outputs
}

/// The answer that a run with these cycles has to give: its first flow, or the
/// number of cycles and clear.
pub fn first_flow(cycles: &[Cycle]) -> u64 {
    for (number, cycle) in cycles.iter().enumerate() {
        if cycle.verdict != CLEAR {
            return number as u64 * 65_536 + cycle.verdict;
        }
    }
    cycles.len() as u64 * 65_536 + CLEAR
}

/// Asks that an accepted run left what these steps left: the first flow, the
/// outputs and the last state.
pub fn same_as_run(
    case: &Case,
    image: &[u8],
    counts: &Counts,
    run: &Call,
    answer: u64,
    before: &[u8],
    cycles: &[Cycle],
) -> Result<(), Box<Failure>> {
    let last = cycles.last().map_or(before, |cycle| &cycle.state);
    let property = if answer != first_flow(cycles) {
        "a run answers with the first flow of its steps"
    } else if run.filled != outputs(cycles, counts) {
        "a run fills the outputs of its steps"
    } else if run.state != last {
        "a run leaves the state of its last step"
    } else {
        return Ok(());
    };
    Err(case.broken(image, run, answer, property))
}
