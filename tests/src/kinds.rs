//! Lists of kinds from which netlists are made: many mixes, in many orders.

use crate::random::Random;
use tracker::kinds::{CONST, INPUT, NOT, OUT, REG};

/// Shares of the kinds CONST, INPUT, REG, NOT, AND, OR, XOR, MUX, OUT.
type Mix = [usize; 9];

#[rustfmt::skip]
const MIXES: [Mix; 20] = [
    // All kinds alike, and more gates than other nets.
    [1, 1, 1, 1, 1, 1, 1, 1, 1],
    [1, 3, 3, 4, 6, 6, 4, 6, 2],
    // No INPUT, no REG, no OUT, no CONST, and none of the first three.
    [2, 0, 3, 2, 3, 3, 3, 3, 2],
    [1, 4, 0, 2, 4, 4, 3, 4, 2],
    [1, 2, 2, 2, 3, 3, 3, 3, 0],
    [0, 2, 2, 2, 3, 3, 3, 3, 3],
    [1, 0, 0, 4, 4, 4, 4, 4, 0],
    // A single kind, as far as net 0 allows.
    [0, 1, 0, 0, 0, 0, 0, 0, 0],
    [0, 0, 1, 0, 0, 0, 0, 0, 0],
    [1, 0, 0, 0, 0, 0, 0, 0, 0],
    [0, 0, 0, 0, 0, 0, 0, 0, 1],
    // OUTs in great number, beside INPUTs or beside everything.
    [0, 1, 0, 0, 0, 0, 0, 0, 6],
    [1, 1, 1, 1, 1, 1, 1, 1, 40],
    // Registers in great number.
    [0, 1, 9, 0, 0, 0, 1, 0, 1],
    [1, 2, 20, 1, 1, 1, 1, 1, 2],
    // One kind of gate.
    [1, 4, 2, 0, 9, 0, 0, 0, 2],
    [1, 4, 2, 0, 0, 9, 0, 0, 2],
    [0, 3, 2, 0, 0, 0, 9, 0, 2],
    [1, 4, 2, 0, 0, 0, 0, 9, 2],
    [0, 1, 1, 9, 0, 0, 0, 0, 1],
];

/// A list of kinds. The first is a CONST, an INPUT or a REG, since net 0 has no
/// net below it.
pub fn draw(random: &mut Random, size: usize) -> Vec<u8> {
    let mix = draw_mix(random);
    let mut kinds = Vec::with_capacity(size);
    for _ in 0..size {
        kinds.push(draw_kind(random, &mix));
    }
    arrange(random, &mut kinds);
    put_source_first(random, &mut kinds);
    kinds
}

/// One of the mixes above, or one with shares drawn at random.
fn draw_mix(random: &mut Random) -> Mix {
    if random.chance(2, 3) {
        return random.pick(&MIXES);
    }
    let mut mix = [0; 9];
    for share in &mut mix {
        *share = random.below(6);
    }
    mix[random.below(9)] += 1;
    mix
}

/// A kind by the shares of the mix, of which at least one is not 0.
fn draw_kind(random: &mut Random, mix: &Mix) -> u8 {
    let mut drawn = random.below(mix.iter().sum());
    for (kind, share) in mix.iter().enumerate() {
        if drawn < *share {
            return kind as u8;
        }
        drawn -= share;
    }
    unreachable!("the draw is below the sum of the shares")
}

/// Leaves the kinds as they were drawn, or orders them in one of several ways.
fn arrange(random: &mut Random, kinds: &mut [u8]) {
    match random.below(10) {
        0 => kinds.sort_unstable(),
        1 => kinds.sort_unstable_by(|a, b| b.cmp(a)),
        // INPUTs, then gates, then the registers, then the OUTs.
        2 => kinds.sort_by_key(|kind| match *kind {
            CONST | INPUT => 0,
            REG => 2,
            OUT => 3,
            _ => 1,
        }),
        // OUTs first, gates last.
        3 => kinds.sort_by_key(|kind| match *kind {
            OUT => 0,
            CONST | INPUT | REG => 1,
            _ => 2,
        }),
        _ => {}
    }
}

/// Brings a kind without pins below it to the front: the first one that there
/// is, or a new one.
fn put_source_first(random: &mut Random, kinds: &mut [u8]) {
    match kinds.iter().position(|kind| *kind < NOT) {
        Some(index) => kinds.swap(0, index),
        None => kinds[0] = random.pick(&[CONST, INPUT, REG]),
    }
}
