//! The doubled netlist runs beside its source and shows the values and marks of
//! all nets, outputs and registers: a property of the library alone.

use crate::bytes::tracked;
use crate::call::Call;
use crate::case::Case;
use crate::coding::CLEAR;
use crate::counts::Counts;
use crate::cycles::few;
use crate::doubled::{double, doubled_state, joined, joined_byte, split, Doubled};
use crate::failure::{Failure, Outcome};
use crate::netlists;
use crate::replay::{steps, Cycle};
use crate::states;
use crate::waking::power_up;
use tracker::{encode, Net};

/// A netlist and its doubled netlist.
struct Pair {
    image: Vec<u8>,
    counts: Counts,
    doubled: Doubled,
}

/// The states from which the two start.
struct Start {
    source: Vec<u8>,
    doubled: Vec<u8>,
}

pub fn run(case: &mut Case) -> Outcome {
    let nets = netlist(case);
    let counts = Counts::of(&nets);
    if !counts.doubles() {
        return Ok(());
    }
    let image = encode(&nets);
    let doubled = double(case, &image, &counts)?;
    let pair = Pair {
        image,
        counts,
        doubled,
    };
    let k = few(&mut case.random);
    let rows = tracked(&mut case.random, k * pair.counts.inputs);
    for start in [power_ups(case, &pair)?, any_state(case, &pair)] {
        outputs_pair(case, &pair, &start, k, &rows)?;
        nets_pair(case, &pair, &start, k.min(6), &rows)?;
    }
    Ok(())
}

/// A small netlist, or one whose doubled netlist is as large as can be.
fn netlist(case: &mut Case) -> Vec<Net> {
    if case.random.chance(1, 50) {
        let doubled = case.random.between(8000, 8192);
        return netlists::of_doubled_size(&mut case.random, doubled);
    }
    netlists::small(&mut case.random)
}

/// Each of the two at its own power-up. A value register without a start is
/// marked there, so only plain values of the doubled netlist are compared.
fn power_ups(case: &mut Case, pair: &Pair) -> Result<Start, Box<Failure>> {
    let doubled = &pair.doubled;
    Ok(Start {
        source: power_up(case, &pair.image, pair.counts.registers)?,
        doubled: power_up(case, &doubled.image, doubled.counts.registers)?,
    })
}

/// Any state of registers with bytes 0 to 3. Register j's value and mark start the
/// doubled registers 2j and 2j + 1.
fn any_state(case: &mut Case, pair: &Pair) -> Start {
    let registers = tracked(&mut case.random, pair.counts.registers);
    Start {
        source: states::of(&registers),
        doubled: doubled_state(&registers),
    }
}

/// Runs both netlists. In each cycle, outputs 2j and 2j + 1 of the doubled one
/// have the value and the mark of output j as their values, and so have the
/// registers at the end. Since its OUTs are free, the doubled run is clear.
fn outputs_pair(case: &mut Case, pair: &Pair, start: &Start, k: usize, rows: &[u8]) -> Outcome {
    let outputs = case.random.bytes(k * pair.counts.outputs);
    let mut run = Call::run(k, start.source.clone(), rows.to_vec(), outputs);
    case.ask(&pair.image, &mut run)?;
    let outputs = case.random.bytes(k * pair.doubled.counts.outputs);
    let mut beside = Call::run(k, start.doubled.clone(), split(rows), outputs);
    let answer = case.ask(&pair.doubled.image, &mut beside)?;
    let property = if answer != k as u64 * 65_536 + CLEAR {
        Some(String::from("a run of the doubled netlist is clear"))
    } else {
        difference("output byte", &run.filled, &joined(&beside.filled))
            .or_else(|| registers_differ(&run.state, &beside.state))
    };
    match property {
        Some(property) => Err(case.broken(&pair.doubled.image, &beside, answer, property)),
        None => Ok(()),
    }
}

/// Steps both netlists. In each cycle, the first and the last net of a group
/// have the value and the mark of the group's net as their values, and after it
/// the registers 2j and 2j + 1 have those of register j.
fn nets_pair(case: &mut Case, pair: &Pair, start: &Start, k: usize, rows: &[u8]) -> Outcome {
    let (counts, doubled) = (&pair.counts, &pair.doubled);
    let source = steps(case, &pair.image, counts, k, &start.source, rows)?;
    let (twice, rows) = (&doubled.counts, split(rows));
    let beside = steps(case, &doubled.image, twice, k, &start.doubled, &rows)?;
    for (cycle, (one, two)) in source.iter().zip(&beside).enumerate() {
        let difference = difference("net", &one.nets, &shown(counts, two))
            .or_else(|| registers_differ(&one.state, &two.state));
        if let Some(text) = difference {
            let property = format!("in cycle {cycle} {text}");
            let step = Call::step(two.state.clone(), Vec::new(), two.nets.clone());
            return Err(case.broken(&doubled.image, &step, two.verdict, property));
        }
    }
    Ok(())
}

/// The bytes of the source's nets, as a cycle of the doubled netlist shows them.
fn shown(counts: &Counts, cycle: &Cycle) -> Vec<u8> {
    let nets = &cycle.nets;
    let byte = |net| joined_byte(nets[counts.value_net(net)], nets[counts.mark_net(net)]);
    (0..counts.nets).map(byte).collect()
}

/// Where the registers of the source's state are not those that the doubled state shows.
/// Each of the two has its own count, and these are not compared.
fn registers_differ(source: &[u8], doubled: &[u8]) -> Option<String> {
    let shown = joined(states::registers(doubled));
    difference("register", states::registers(source), &shown)
}

/// Where the bytes of the source are not those that the doubled netlist shows.
fn difference(what: &str, source: &[u8], shown: &[u8]) -> Option<String> {
    let index = (0..source.len()).find(|index| source[*index] != shown[*index])?;
    let (byte, pair) = (source[index], shown[index]);
    Some(format!(
        "{what} {index} of the source is {byte}, but its pair shows {pair}"
    ))
}
