//! Every good net behind three INPUTs, on all rows of codes, and behind three REGs,
//! from all states of codes, with each of its pins inverted or not.

use crate::all::{all_codes, all_nets, Pins};
use crate::call::Call;
use crate::case::Case;
use crate::codes;
use crate::counts::Counts;
use crate::failure::Outcome;
use tracker::kinds::{INPUT, INVERTED, OUT, REG};
use tracker::{encode, Net};

/// The number of the net in the middle, and of all nets.
const MIDDLE: usize = 3;
const SIZE: usize = 5;

/// There are so many good nets with that number.
pub const CASES: u64 = 375;

pub fn run(case: &mut Case) -> Outcome {
    let nets = all_nets(Pins::Both, MIDDLE, SIZE);
    assert_eq!(nets.len() as u64, CASES);
    let net = nets[(case.seed % CASES) as usize];
    on_all_rows(case, &with_sources([Net::new(INPUT, 0, 0, 0); 3], net))?;
    // The registers take the net, the inverted net, and the OUT.
    let registers = [
        Net::new(REG, 3, 0, 0),
        Net::new(REG, 3 + INVERTED, 1, 0),
        Net::new(REG, 4, 2, 0),
    ];
    from_all_states(case, &with_sources(registers, net))
}

/// Three nets, a net behind them, and a protected OUT on it.
fn with_sources(sources: [Net; 3], net: Net) -> Vec<Net> {
    [&sources[..], &[net, Net::new(OUT, 3, 1, 0)]].concat()
}

/// One static run, with a cycle for each row.
fn on_all_rows(case: &mut Case, nets: &[Net]) -> Outcome {
    let counts = Counts::of(nets);
    let rows = all_codes(counts.inputs);
    let outputs = case.random.bytes(rows.len() * counts.outputs);
    let state = codes::draw(&mut case.random, counts.registers);
    let mut run = Call::static_run(rows.len(), state, rows.concat(), outputs);
    case.compare(&encode(nets), &mut run)?;
    Ok(())
}

/// A static power-up, and a static run of one cycle from each state.
fn from_all_states(case: &mut Case, nets: &[Net]) -> Outcome {
    let (counts, image) = (Counts::of(nets), encode(nets));
    let mut powered = Call::static_power_up(case.random.bytes(counts.registers));
    case.compare(&image, &mut powered)?;
    for state in all_codes(counts.registers) {
        let row = codes::draw(&mut case.random, counts.inputs);
        let mut run = Call::static_run(1, state, row, case.random.bytes(counts.outputs));
        case.compare(&image, &mut run)?;
    }
    Ok(())
}
