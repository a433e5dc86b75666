//! What the reference answers to a call, and the bytes that it leaves.

use crate::call::Call;
use crate::coding;
use crate::name::Name;
use reference::DoubledSize;

/// The outcome that a call must have.
pub struct Expected {
    pub answer: u64,
    pub state: Vec<u8>,
    pub filled: Vec<u8>,
}

/// Makes the call with the reference, on copies of the call's bytes.
pub fn expect(image: &[u8], call: &Call) -> Expected {
    let mut state = call.state.clone();
    let mut filled = call.filled.clone();
    let answer = match call.name {
        Name::Check => reference::check(image).map(|_| 0),
        Name::PowerUp => reference::power_up(image, &mut state).map(|()| 0),
        Name::Step => {
            reference::step(image, &mut state, &call.rows, &mut filled).map(coding::verdict)
        }
        Name::Run => reference::run(image, call.k, &mut state, &call.rows, &mut filled)
            .map(coding::first_flow),
        Name::DoubledSize | Name::DoubledKind => {
            reference::doubled_size(image).map(|size| figure(size, call))
        }
        Name::Double => reference::double(image, &mut filled).map(|()| 0),
        Name::StaticPowerUp => reference::static_power_up(image, &mut state).map(|()| 0),
        Name::StaticRun => {
            reference::static_run(image, call.k, &mut state, &call.rows, &mut filled)
                .map(coding::first_flow)
        }
        Name::Page => reference::page(image, call.k, &call.rows, &mut filled).map(|()| 0),
    };
    Expected {
        answer: answer.unwrap_or_else(coding::refusal),
        state,
        filled,
    }
}

/// The figure of the doubled netlist that a call asks for: its nets, or those of
/// one kind.
pub fn figure(size: DoubledSize, call: &Call) -> u64 {
    let nets = match call.name {
        Name::DoubledKind => size.kinds.get(call.kind).copied().unwrap_or(0),
        _ => size.nets,
    };
    nets as u64
}
