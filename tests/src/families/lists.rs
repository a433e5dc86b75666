//! Lists of calls with one state, which go on after refusals.

use crate::bytes::spoil;
use crate::call::Call;
use crate::case::Case;
use crate::counts::Counts;
use crate::drawing;
use crate::failure::Outcome;
use crate::faults::{damaged, Fault};
use crate::netlists;
use crate::states;
use tracker::{encode, Net};

/// The state starts with good bytes and their count, and may get bad ones or a wrong
/// count, which every step and run refuses until a power-up. They also refuse a state
/// in which a static run left unknown bits. Static calls have the registers of the
/// state, and their count is set behind what they leave.
///
/// One list of bytes stands for the library's state and the reference's: each
/// call is made on both, and the two are found equal before the next one.
pub fn run(case: &mut Case) -> Outcome {
    let nets = netlists::mostly_small(&mut case.random, 300);
    let counts = Counts::of(&nets);
    let mut state = states::draw(&mut case.random, counts.registers);
    for _ in 0..case.random.between(5, 50) {
        if case.random.chance(1, 30) {
            spoil(&mut case.random, &mut state);
        }
        let mut call = drawing::any(&mut case.random, &counts, &state);
        let own = own_state(&call, &state).to_vec();
        call.state.clone_from(&own);
        let image = lent_image(case, &nets);
        while case.random.chance(1, 4) {
            drawing::put_fault(&mut case.random, &counts, &mut call, true);
        }
        let is_own = call.state == own;
        case.compare(&image, &mut call)?;
        match (is_own, call.name.has_count()) {
            (true, true) => state = call.state,
            (true, false) if call.name.has_state() => state = states::of(&call.state),
            _ => {}
        }
    }
    Ok(())
}

/// What a call has of the list's state: all of it, its registers or nothing.
fn own_state<'a>(call: &Call, state: &'a [u8]) -> &'a [u8] {
    match (call.name.has_count(), call.name.has_state()) {
        (true, _) => state,
        (false, true) => states::registers(state),
        (false, false) => &[],
    }
}

/// The good image in most calls, and a damaged one in some.
fn lent_image(case: &mut Case, nets: &[Net]) -> Vec<u8> {
    if !case.random.chance(1, 12) {
        return encode(nets);
    }
    let number = case.random.between(1, 8);
    let net = case.random.below(nets.len());
    damaged(&mut case.random, nets, &[Fault { number, net }])
}
