//! The two-run property: two lists of calls, from states and with rows that agree
//! in marks and unmarked values, cannot be told apart by what is unmarked, nor by the
//! counts in their states. A property of the library alone.

mod on_doubled;
mod on_source;
mod starting;

use crate::bytes::agreeing;
use crate::call::Call;
use crate::case::Case;
use crate::counts::Counts;
use crate::cycles::few;
use crate::doubled::double;
use crate::drawing;
use crate::failure::Outcome;
use crate::netlists;
use tracker::encode;

/// One of the two lists: its state, and its state on the doubled netlist.
pub struct List {
    state: Vec<u8>,
    doubled_state: Vec<u8>,
}

pub fn run(case: &mut Case) -> Outcome {
    let nets = netlists::mostly_small(&mut case.random, 200);
    let counts = Counts::of(&nets);
    let image = encode(&nets);
    let doubled = if counts.doubles() {
        Some(double(case, &image, &counts)?)
    } else {
        None
    };
    let mut lists = starting::lists(case, &image, &counts, &doubled)?;
    for _ in 0..case.random.between(3, 14) {
        let calls = two_calls(case, &counts, &lists);
        let accepted = on_source::calls_agree(case, &image, &counts, &calls, &mut lists)?;
        if let (true, Some(doubled)) = (accepted, &doubled) {
            on_doubled::calls_agree(case, doubled, &calls, &mut lists)?;
        }
    }
    Ok(())
}

/// Two steps, or two runs with the same k. Their rows agree, and their buffers
/// are equally long and hold any bytes. Some have a wrong length, bad bytes or
/// a bad k.
fn two_calls(case: &mut Case, counts: &Counts, lists: &[List; 2]) -> [Call; 2] {
    let random = &mut case.random;
    let mut one = if random.chance(1, 2) {
        drawing::step(random, counts, &lists[0].state)
    } else {
        let k = few(random);
        drawing::run(random, counts, k, &lists[0].state)
    };
    if random.chance(1, 4) {
        drawing::put_fault(random, counts, &mut one, false);
    }
    let mut other = one.clone();
    other.state.clone_from(&lists[1].state);
    other.rows = agreeing(random, &one.rows);
    other.filled = random.bytes(one.filled.len());
    [one, other]
}
