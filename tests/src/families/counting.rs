//! The count of marked registers, in states of good netlists, some of which have many
//! hundred registers: what power-up sets, and steps and runs from states with and
//! without faults. What each call has to answer follows from its faults, and is held
//! against the reference too.

use crate::bytes::{resize, spoil};
use crate::call::Call;
use crate::case::Case;
use crate::coding::number_of;
use crate::counts::Counts;
use crate::cycles::few;
use crate::drawing;
use crate::failure::Outcome;
use crate::netlists;
use crate::random::Random;
use crate::states;
use tracker::kinds::{INPUT, OUT, REG};
use tracker::{encode, Net};

/// The start of a register that wakes marked.
const NONE_GIVEN: u16 = 2;

/// What is wrong with the state and the rows of a call.
struct Faults {
    /// The state is its registers alone.
    alone: bool,
    /// Some register bytes are above 3.
    bytes: bool,
    /// The count is wrong.
    count: bool,
    /// The length of the rows is wrong.
    rows: bool,
}

pub fn run(case: &mut Case) -> Outcome {
    let nets = netlist(&mut case.random);
    let (counts, image) = (Counts::of(&nets), encode(&nets));
    power_up(case, &image, &nets)?;
    for set in 0..16 {
        let faults = Faults {
            alone: set & 1 > 0,
            bytes: set & 2 > 0 && counts.registers > 0,
            count: set & 4 > 0,
            rows: set & 8 > 0,
        };
        with_faults(case, &image, &counts, &faults)?;
    }
    Ok(())
}

/// A small netlist, or one of some hundred registers and more, an input and an output.
fn netlist(random: &mut Random) -> Vec<Net> {
    if random.chance(7, 8) {
        return netlists::small(random);
    }
    let registers = random.between(250, 1500);
    let kinds = [&[INPUT][..], &vec![REG; registers], &[OUT]].concat();
    netlists::of_kinds(random, &kinds)
}

/// Power-up counts the registers without a start, whatever the state held.
fn power_up(case: &mut Case, image: &[u8], nets: &[Net]) -> Outcome {
    let registers = nets.iter().filter(|net| net.kind == REG);
    let length = states::length(registers.clone().count());
    let unknown = registers.filter(|net| net.operands[1] == NONE_GIVEN);
    let mut powered = Call::power_up(case.random.bytes(length));
    let answer = case.compare(image, &mut powered)?;
    if answer != 0 || states::count(&powered.state) != unknown.count() {
        let property = "power-up counts the registers without a start";
        return Err(case.broken(image, &powered, answer, property));
    }
    Ok(())
}

/// Makes a step or a run with these faults.
fn with_faults(case: &mut Case, image: &[u8], counts: &Counts, faults: &Faults) -> Outcome {
    let random = &mut case.random;
    let state = faulty_state(random, counts, faults);
    let mut call = if random.chance(1, 2) {
        drawing::step(random, counts, &state)
    } else {
        let k = few(random);
        drawing::run(random, counts, k, &state)
    };
    if faults.rows {
        resize(random, &mut call.rows);
    }
    let answer = case.compare(image, &mut call)?;
    let expected = expected(counts, faults, &state);
    if (expected > 0 && answer != expected) || (expected == 0 && number_of(answer) > 0) {
        let property = "10, 11, 20 and 12 are tried in this order, each for its own fault";
        return Err(case.broken(image, &call, answer, property));
    }
    Ok(())
}

/// A state with these faults.
fn faulty_state(random: &mut Random, counts: &Counts, faults: &Faults) -> Vec<u8> {
    let mut state = states::draw(random, counts.registers);
    if faults.count {
        states::put_wrong_count(random, &mut state);
    }
    if faults.bytes {
        spoil(random, &mut state[..counts.registers]);
    }
    if faults.alone {
        state.truncate(counts.registers);
    }
    state
}

/// The refusal of a call with these faults, or 0 where it is accepted.
fn expected(counts: &Counts, faults: &Faults, state: &[u8]) -> u64 {
    let bad = state[..counts.registers].iter().position(|byte| *byte > 3);
    match (faults, bad) {
        (Faults { alone: true, .. }, _) => 10 << 32,
        (_, Some(index)) => (11 << 32) + index as u64,
        (Faults { count: true, .. }, _) => 20 << 32,
        (Faults { rows: true, .. }, _) => 12 << 32,
        _ => 0,
    }
}
