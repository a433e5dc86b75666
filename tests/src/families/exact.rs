//! In one cycle, a net that other values of the marked INPUTs and REGs change is marked,
//! and a net that none of them reaches along two ways is marked only then: a property of
//! the library alone.

use crate::bytes::tracked;
use crate::call::Call;
use crate::case::Case;
use crate::counts::Counts;
use crate::exactness::Reached;
use crate::failure::{Failure, Outcome};
use crate::listed::{net_of, pins_of};
use crate::netlists;
use crate::random::Random;
use crate::replay::{steps, Cycle};
use crate::states;
use tracker::kinds::{AND, CONST, INPUT, INVERTED, MUX, NOT, OR, OUT, REG, XOR};
use tracker::{encode, Net};

/// At most so many INPUTs and REGs are marked, since all their values are tried.
const MOST_MARKED: usize = 6;

/// A netlist, and the bytes of its row and behind them those of its registers.
struct Start {
    nets: Vec<Net>,
    counts: Counts,
    image: Vec<u8>,
    bytes: Vec<u8>,
}

pub fn run(case: &mut Case) -> Outcome {
    let start = starting(&mut case.random);
    let cycle = step(case, &start, &start.bytes)?;
    let marked: Vec<usize> = (0..start.bytes.len())
        .filter(|index| is_marked(start.bytes[*index]))
        .collect();
    let changes = changes(case, &start, &marked, &cycle.nets)?;
    let ways = most_ways(&start.nets, &marked);
    for (number, byte) in cycle.nets.iter().enumerate() {
        let net = Reached {
            kind: start.nets[number].kind,
            ways: ways[number],
            is_marked: is_marked(*byte),
            changes: changes[number],
        };
        if let Some(property) = wrong_mark(number, &net) {
            let row = start.bytes[..start.counts.inputs].to_vec();
            let step = Call::step(cycle.state, row, cycle.nets);
            return Err(case.broken(&start.image, &step, cycle.verdict, property));
        }
        case.note_net(&net);
    }
    Ok(())
}

fn is_marked(byte: u8) -> bool {
    byte >= 2
}

/// A netlist of a few nets, and bytes of which few are marked.
fn starting(random: &mut Random) -> Start {
    let most = random.pick(&[4, 8, 12, 12, 12, 12, 12, 30]);
    let size = random.between(2, most);
    let nets = if random.chance(1, 4) {
        netlists::of_size(random, size)
    } else {
        branching(random, size)
    };
    let counts = Counts::of(&nets);
    let mut bytes = tracked(random, counts.inputs + counts.registers);
    while bytes.iter().filter(|byte| is_marked(**byte)).count() > MOST_MARKED {
        let index = random.below(bytes.len());
        bytes[index] %= 2;
    }
    Start {
        image: encode(&nets),
        nets,
        counts,
        bytes,
    }
}

/// A netlist in which about half of the nets are gates and OUTs, many of them reached
/// along one way alone.
fn branching(random: &mut Random, size: usize) -> Vec<Net> {
    let mut kinds = Vec::with_capacity(size);
    for number in 0..size {
        kinds.push(if number == 0 || random.chance(1, 2) {
            random.pick(&[CONST, INPUT, INPUT, REG, REG])
        } else {
            random.pick(&[NOT, AND, OR, XOR, MUX, MUX, OUT])
        });
    }
    let mut nets = netlists::of_kinds(random, &kinds);
    spread(random, &mut nets);
    nets
}

/// Has each pin of a gate or an OUT read a net that no pin before it reads, while there
/// is one. Inverted pins stay inverted.
fn spread(random: &mut Random, nets: &mut [Net]) {
    let mut unread = Vec::new();
    for (number, net) in nets.iter_mut().enumerate() {
        if net.kind != REG {
            for pin in &mut net.operands[..pins_of(net.kind)] {
                if !unread.is_empty() {
                    let other: u16 = unread.swap_remove(random.below(unread.len()));
                    *pin = (*pin & INVERTED) + other;
                }
            }
        }
        unread.push(number as u16);
    }
}

/// A step of the library, with these bytes of the row and the registers.
fn step(case: &mut Case, start: &Start, bytes: &[u8]) -> Result<Cycle, Box<Failure>> {
    let (row, registers) = bytes.split_at(start.counts.inputs);
    let state = states::of(registers);
    let mut cycles = steps(case, &start.image, &start.counts, 1, &state, row)?;
    Ok(cycles.remove(0))
}

/// Whether other values of the marked bytes change the value of each net, by steps with
/// all of their values.
fn changes(
    case: &mut Case,
    start: &Start,
    marked: &[usize],
    nets: &[u8],
) -> Result<Vec<bool>, Box<Failure>> {
    let mut changes = vec![false; nets.len()];
    for flips in 1..1_u8 << marked.len() {
        let mut bytes = start.bytes.clone();
        for (place, index) in marked.iter().enumerate() {
            bytes[*index] ^= (flips >> place) & 1;
        }
        let other = step(case, start, &bytes)?;
        for (number, byte) in other.nets.iter().enumerate() {
            changes[number] |= byte % 2 != nets[number] % 2;
        }
    }
    Ok(changes)
}

/// For each net the most ways along which one of the marked INPUTs and REGs, given by
/// the indices of their bytes, reaches it.
fn most_ways(nets: &[Net], marked: &[usize]) -> Vec<usize> {
    let of_kind = |kind| (0..nets.len()).filter(move |number| nets[*number].kind == kind);
    let sources: Vec<usize> = of_kind(INPUT).chain(of_kind(REG)).collect();
    let mut most = vec![0; nets.len()];
    for index in marked {
        for (most, ways) in most.iter_mut().zip(ways(nets, sources[*index])) {
            *most = ways.max(*most);
        }
    }
    most
}

/// The number of ways from a source to each net, where 2 stands for more too. Every pin
/// of a gate or an OUT is a way on from the net that it names. The pin of a REG is none.
fn ways(nets: &[Net], source: usize) -> Vec<usize> {
    let mut ways = vec![0; nets.len()];
    for (number, net) in nets.iter().enumerate() {
        let pins = net.operands[..pins_of(net.kind)].iter();
        ways[number] = match net.kind {
            _ if number == source => 1,
            REG => 0,
            _ => pins.map(|pin| ways[net_of(*pin)]).sum::<usize>().min(2),
        };
    }
    ways
}

/// What does not hold of the mark of the net with this number in the first step.
fn wrong_mark(number: usize, net: &Reached) -> Option<String> {
    if net.changes && !net.is_marked {
        return Some(format!(
            "in call 1 net {number} is marked, since other values of the marked inputs and \
             registers change it"
        ));
    }
    if net.ways < 2 && net.is_marked && !net.changes {
        return Some(format!(
            "in call 1 net {number} is unmarked, since no marked input or register reaches it \
             along two ways and no other values of them change it"
        ));
    }
    None
}
