//! All good netlists of 4 nets without inverted pins. Each is checked, stepped, run
//! and doubled, after its figures were asked for. Where the first three nets are
//! inputs, it is stepped on all rows. Then, for one in eight of them, each pin is
//! inverted or not, at random, and it is checked, stepped, run and doubled again.

use crate::all::{all_bytes, all_nets, chosen, Pins};
use crate::call::Call;
use crate::case::Case;
use crate::counts::Counts;
use crate::drawing;
use crate::failure::Outcome;
use crate::figures::compare_doubling;
use crate::listed::pins_of;
use crate::states;
use tracker::kinds::{INPUT, INVERTED};
use tracker::{encode, Net};

/// A case has one choice of nets 0 to 2, and all 78 of net 3.
pub const CASES: u64 = 15 * 22 * 41;

pub fn run(case: &mut Case) -> Outcome {
    let first = chosen(Pins::Plain, case.seed % CASES, CASES, 3, 4);
    for last in all_nets(Pins::Plain, 3, 4) {
        let mut nets = [&first[..], &[last]].concat();
        plain_calls(case, &nets)?;
        if case.random.chance(1, 8) && invert(case, &mut nets) {
            inverted_calls(case, &nets)?;
        }
    }
    Ok(())
}

fn plain_calls(case: &mut Case, nets: &[Net]) -> Outcome {
    let counts = Counts::of(nets);
    let image = encode(nets);
    cycles(case, &image, &counts)?;
    compare_doubling(case, &image, &counts)?;
    if nets[..3].iter().all(|net| net.kind == INPUT) {
        let state = states::draw(&mut case.random, counts.registers);
        for row in all_bytes(counts.inputs) {
            let buffer = case.random.bytes(counts.nets);
            let mut step = Call::step(state.clone(), row, buffer);
            case.compare(&image, &mut step)?;
        }
    }
    Ok(())
}

/// Inverts pins at random, and answers whether any pin was inverted.
fn invert(case: &mut Case, nets: &mut [Net]) -> bool {
    let mut any = false;
    for net in nets {
        for pin in &mut net.operands[..pins_of(net.kind)] {
            if case.random.chance(1, 2) {
                *pin += INVERTED;
                any = true;
            }
        }
    }
    any
}

fn inverted_calls(case: &mut Case, nets: &[Net]) -> Outcome {
    let counts = Counts::of(nets);
    let image = encode(nets);
    cycles(case, &image, &counts)?;
    let mut double = drawing::double(&mut case.random, &counts);
    case.compare(&image, &mut double)?;
    Ok(())
}

/// A check, and a step and a run with one state.
fn cycles(case: &mut Case, image: &[u8], counts: &Counts) -> Outcome {
    case.compare(image, &mut Call::check())?;
    let state = states::draw(&mut case.random, counts.registers);
    let mut step = drawing::step(&mut case.random, counts, &state);
    case.compare(image, &mut step)?;
    let mut run = drawing::run(&mut case.random, counts, 3, &step.state);
    case.compare(image, &mut run)?;
    Ok(())
}
