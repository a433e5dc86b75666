//! Random calls that write pages of a good netlist, with lengths that are right or
//! made wrong.

use crate::bytes::{resize, spoil, tracked, wrong_length};
use crate::call::Call;
use crate::counts::Counts;
use crate::cycles::{paged, with_high_bits, wrapping, NOTED, PAGED};
use crate::random::Random;
use tracker::MOST_CYCLES;

/// Buffers that get a length by a fault have at most so many bytes.
const MOST_BYTES: usize = 70_000;

/// The pages of a random record of k cycles, with right lengths. The buffer holds any
/// bytes.
pub fn page(random: &mut Random, counts: &Counts, k: usize) -> Call {
    let record = tracked(random, k * counts.outputs);
    let page = random.bytes(counts.page_length(k));
    Call::page(k, record, page)
}

/// The same of any number of cycles.
pub fn any(random: &mut Random, counts: &Counts) -> Call {
    let k = paged(random, counts.outputs);
    page(random, counts, k)
}

/// Makes one thing wrong in a call: a length, some bytes, or k.
pub fn put_fault(random: &mut Random, counts: &Counts, call: &mut Call) {
    match random.below(8) {
        0 => resize(random, &mut call.rows),
        1 => spoil(random, &mut call.rows),
        2 => put_bad_byte_behind(random, call),
        3 | 4 => put_other_cycles(random, counts, call),
        _ => {
            let length = other_length(random, counts, call);
            call.filled = random.bytes(length);
        }
    }
}

/// Makes the record longer, with a bad byte behind its right length alone.
fn put_bad_byte_behind(random: &mut Random, call: &mut Call) {
    let more = random.between(0, 70);
    let good = tracked(random, more);
    call.rows.extend(good);
    call.rows.push(random.pick(&[4, 5, 6, 48, 255]));
}

/// A length of the page buffer: that of one page or one output more or less, of lines
/// without newlines, of the pages with a 0 byte behind them, that of other cycles, or
/// any. Where there are no pages, it may still be right.
fn other_length(random: &mut Random, counts: &Counts, call: &Call) -> usize {
    let length = call.filled.len();
    let page = 71 * (1 + counts.outputs);
    let other = random.pick(&PAGED);
    match random.below(8) {
        0 => length + page,
        1 => length.saturating_sub(page),
        2 => length + 71,
        3 => length.saturating_sub(71 * (length / page)),
        4 => length / 71 * 70,
        5 => length + 1,
        6 if counts.page_length(other) <= MOST_BYTES => counts.page_length(other),
        _ => wrong_length(random, length),
    }
}

/// Gives another k. The buffers stay as they were, or get the lengths that belong to
/// this k, or those that belong to the products once their high bits are lost. They
/// never get very long.
fn put_other_cycles(random: &mut Random, counts: &Counts, call: &mut Call) {
    call.k = match random.below(5) {
        0 => with_high_bits(random, call.k),
        1 if counts.outputs > 0 => wrapping(random, counts.outputs),
        2 => random.pick(&NOTED),
        3 => call.k % MOST_CYCLES / 64 * 64 + random.between(0, 65),
        _ => random.pick(&PAGED),
    };
    let record = call.k.wrapping_mul(counts.outputs);
    if record <= MOST_BYTES && random.chance(2, 3) {
        call.rows = tracked(random, record);
    }
    let page = counts.page_length(call.k);
    if page <= MOST_BYTES && random.chance(2, 3) {
        call.filled = random.bytes(page);
    }
}
