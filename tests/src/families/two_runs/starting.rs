//! The states from which the two lists start.

use super::List;
use crate::bytes::spoil;
use crate::call::Call;
use crate::case::Case;
use crate::counts::Counts;
use crate::doubled::{doubled_state, Doubled};
use crate::failure::Failure;
use crate::states::{self, agreeing, first_disagreement};
use crate::waking::{power_up, waking};
use tracker::Image;

/// The two lists at their start. Their states agree: they are two with which the
/// netlist may wake, or any two. On the doubled netlist the lists start from the
/// values and marks of these states, or from two states with which the doubled
/// netlist may itself wake.
pub fn lists(
    case: &mut Case,
    image: &[u8],
    counts: &Counts,
    doubled: &Option<Doubled>,
) -> Result<[List; 2], Box<Failure>> {
    let wakes = case.random.chance(2, 3);
    let states = if wakes {
        two_wakings(case, image)?
    } else {
        any_two(case, counts)
    };
    let doubled_states = match doubled {
        Some(doubled) if wakes && case.random.chance(1, 2) => two_wakings(case, &doubled.image)?,
        _ => [&states[0], &states[1]].map(|state| doubled_beside(counts, state)),
    };
    let list = |state, doubled_state| List {
        state,
        doubled_state,
    };
    let ([one, other], [doubled_one, doubled_other]) = (states, doubled_states);
    Ok([list(one, doubled_one), list(other, doubled_other)])
}

/// The state of the doubled netlist beside a state of the source. Where that one is
/// refused, so are all calls of its list, and none is made on the doubled netlist.
fn doubled_beside(counts: &Counts, state: &[u8]) -> Vec<u8> {
    doubled_state(&state[..counts.registers.min(state.len())])
}

/// The state of power-up, and another one with which the netlist may wake. They
/// must agree, and have equal counts.
fn two_wakings(case: &mut Case, image: &[u8]) -> Result<[Vec<u8>; 2], Box<Failure>> {
    let read = Image::of(image).expect("an image of the right length");
    let registers = read.sizes().registers;
    let other = waking(&mut case.random, read);
    let powered = power_up(case, image, registers)?;
    if let Some(index) = first_disagreement(registers, &powered, &other) {
        let property = format!("power-up agrees with every waking, also at index {index}");
        return Err(case.broken(image, &Call::power_up(powered), 0, property));
    }
    Ok([powered, other])
}

/// Any two states that agree and have equal counts. Some have a wrong length, bad bytes
/// or a wrong count, for which every call of both lists turns back.
fn any_two(case: &mut Case, counts: &Counts) -> [Vec<u8>; 2] {
    let random = &mut case.random;
    let mut one = states::draw(random, counts.registers);
    match random.below(16) {
        0 => states::resize(random, &mut one),
        1 => spoil(random, &mut one),
        2 => states::put_wrong_count(random, &mut one),
        _ => {}
    }
    let other = agreeing(random, counts.registers, &one);
    [one, other]
}
