//! Random calls on a good netlist, with lengths that are right or made wrong.

use crate::bytes::{self, resize, tracked};
use crate::call::Call;
use crate::codes;
use crate::counts::Counts;
use crate::cycles::{few, with_high_bits, wrapping, NOTED};
use crate::name::Name;
use crate::pages;
use crate::random::Random;
use crate::states;
use std::iter;
use tracker::MOST_CYCLES;

/// A step on a random row, with right lengths. The buffer holds any bytes.
pub fn step(random: &mut Random, counts: &Counts, state: &[u8]) -> Call {
    let row = tracked(random, counts.inputs);
    Call::step(state.to_vec(), row, random.bytes(counts.nets))
}

/// A run of k cycles on random rows, with right lengths.
pub fn run(random: &mut Random, counts: &Counts, k: usize, state: &[u8]) -> Call {
    let rows = tracked(random, k * counts.inputs);
    let outputs = random.bytes(k * counts.outputs);
    Call::run(k, state.to_vec(), rows, outputs)
}

/// A static run of k cycles on random codes, with right lengths.
pub fn static_run(random: &mut Random, counts: &Counts, k: usize, state: &[u8]) -> Call {
    let rows = codes::draw(random, k * counts.inputs);
    let outputs = random.bytes(k * counts.outputs);
    Call::static_run(k, state.to_vec(), rows, outputs)
}

/// A doubling with a buffer of the right length. Where no length is right, the
/// buffer has any.
pub fn double(random: &mut Random, counts: &Counts) -> Call {
    let length = if counts.doubles() {
        counts.doubled_length()
    } else {
        random.pick(&[0, 1, 8, 57_352, counts.doubled_length()])
    };
    Call::double(random.bytes(length))
}

/// The calls that ask for all figures of the doubled netlist: its nets, and those
/// of each kind, of 9, which is none, and of a kind that becomes another one when
/// its high bits are lost.
pub fn figures(random: &mut Random) -> impl Iterator<Item = Call> {
    let kinds = (0..=9).chain([large_kind(random)]);
    iter::once(Call::doubled_size()).chain(kinds.map(Call::doubled_kind))
}

/// A number that is no kind, with one high bit.
fn large_kind(random: &mut Random) -> usize {
    random.below(9) | 1 << random.between(4, 63)
}

/// Any call with right lengths. The state is lent where the call takes one, without
/// its count to a static run; for a power-up, any bytes are.
pub fn any(random: &mut Random, counts: &Counts, state: &[u8]) -> Call {
    match random.below(17) {
        0 => Call::check(),
        1 => double(random, counts),
        2 | 3 => Call::power_up(random.bytes(states::length(counts.registers))),
        4..=7 => step(random, counts, state),
        8 => Call::doubled_size(),
        9 => {
            let large = large_kind(random);
            Call::doubled_kind(random.pick(&[0, 1, 2, 3, 4, 5, 6, 7, 8, 9, large]))
        }
        10 => Call::static_power_up(random.bytes(counts.registers)),
        11 => {
            let k = few(random);
            static_run(random, counts, k, states::registers(state))
        }
        12 => pages::any(random, counts),
        _ => {
            let k = few(random);
            run(random, counts, k, state)
        }
    }
}

/// Makes one thing wrong in a call: a length, some bytes, or k. With
/// `state_too` it may be the state as well, or its count.
pub fn put_fault(random: &mut Random, counts: &Counts, call: &mut Call, state_too: bool) {
    let spoil = match call.name {
        Name::Page => return pages::put_fault(random, counts, call),
        Name::StaticRun => codes::spoil,
        _ => bytes::spoil,
    };
    match random.below(if state_too { 9 } else { 6 }) {
        0 if call.name.has_rows() => resize(random, &mut call.rows),
        1 | 2 if call.name.has_rows() => spoil(random, &mut call.rows),
        3 | 4 if call.name.has_k() => put_other_cycles(random, counts, call),
        6 if call.name.has_count() => states::resize(random, &mut call.state),
        6 if call.name.has_state() => put_count_behind(random, &mut call.state),
        7 if call.name.has_state() => spoil(random, &mut call.state),
        8 if call.name.has_count() => states::put_wrong_count(random, &mut call.state),
        _ if call.name.has_filled() => resize(random, &mut call.filled),
        _ if state_too => resize(random, &mut call.state),
        _ => {}
    }
}

/// Gives the state of a static call a wrong length, often by the count that states of
/// other calls have.
fn put_count_behind(random: &mut Random, state: &mut Vec<u8>) {
    if random.chance(1, 3) {
        *state = states::of(state);
    } else {
        resize(random, state);
    }
}

/// Gives a run or a static run another k. The buffers stay as they were, or get the
/// lengths that belong to this k, or those that belong to the product once its high
/// bits are lost. They never get very long. Few long static runs get right lengths,
/// since the reference is slow at them.
fn put_other_cycles(random: &mut Random, counts: &Counts, call: &mut Call) {
    call.k = match random.below(5) {
        0 => with_high_bits(random, call.k),
        1 if counts.inputs > 0 => wrapping(random, counts.inputs),
        2 if counts.outputs > 0 => wrapping(random, counts.outputs),
        3 => random.between(0, MOST_CYCLES + 2),
        _ => random.pick(&NOTED),
    };
    let is_slow = call.name == Name::StaticRun && (128..=MOST_CYCLES).contains(&call.k);
    if random.chance(2, if is_slow { 60 } else { 3 }) {
        let rows = call.k.wrapping_mul(counts.inputs);
        if rows <= 70_000 {
            call.rows = match call.name {
                Name::StaticRun => codes::draw(random, rows),
                _ => tracked(random, rows),
            };
        }
        let outputs = call.k.wrapping_mul(counts.outputs);
        if outputs <= 70_000 {
            call.filled = random.bytes(outputs);
        }
    }
}
