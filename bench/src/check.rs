//! What the peers test before a run: the refusals 1 to 14 of a run, in order, with 20
//! directly after 11, and those of a static run, which has 18 in place of 11 and 13
//! and no 20.
//!
//! An answer is the refusal's number * 2^32 + its place, as the library's.

use crate::call::Call;
use crate::limits::{Limits, NO_KIND};
use crate::pins::net_of;
use crate::state::count_marked;
use tracker::kinds::{AND, CONST, INPUT, MUX, NOT, OUT, REG, XOR};
use tracker::{codes, marked_registers, sizes, state_length};
use tracker::{Image, Net, Sizes, MOST_CYCLES, MOST_NETS};

/// The answer of a refusal.
pub fn refusal(number: u64, place: usize) -> u64 {
    (number << 32) + place as u64
}

/// How many nets there are of each kind, and behind them of what is no kind.
pub type KindCounts = [usize; NO_KIND + 1];

/// Checks an image: its sizes, or one of the refusals 1 to 8.
pub fn check(image: &[u8]) -> Result<Sizes, u64> {
    count(image).map(|(sizes, _)| sizes)
}

/// Checks an image: its sizes and its nets of each kind, or one of the refusals 1
/// to 8.
#[inline(always)]
pub fn count(image: &[u8]) -> Result<(Sizes, KindCounts), u64> {
    let sizes = sizes(image).ok_or(refusal(1, 0))?;
    if sizes.nets == 0 || sizes.nets > MOST_NETS {
        return Err(refusal(2, 0));
    }
    let image = Image::of(image).ok_or(refusal(3, 0))?;
    let mut limits = Limits::new(sizes.nets);
    let mut counts: KindCounts = [0; NO_KIND + 1];
    for (i, net) in image.nets().enumerate() {
        let kind = usize::from(net.kind).min(NO_KIND);
        if !limits.allow(kind, net) {
            return Err(refusal(bad_net(net, i, sizes.nets), i));
        }
        limits.move_on();
        counts[kind] += 1;
    }
    let wanted = [sizes.inputs, sizes.registers, sizes.outputs];
    if wanted != [counts[1], counts[2], counts[8]] {
        return Err(refusal(8, 0));
    }
    Ok((sizes, counts))
}

/// The number of the refusal 4 to 7 that net i of n draws, which is refused.
#[cold]
fn bad_net(net: Net, i: usize, n: usize) -> u64 {
    let below = |pin: u16, limit: usize| net_of(pin) < limit;
    // Whether the pins name nets that they may name, and whether the settings
    // are in range.
    let [a, b, c] = net.operands;
    let (pins, settings) = match net.kind {
        CONST => (true, a <= 1),
        INPUT => (true, true),
        REG => (below(a, n), b <= 2),
        NOT => (below(a, i), true),
        AND..=XOR => (below(a, i) && below(b, i), true),
        MUX => (below(a, i) && below(b, i) && below(c, i), true),
        OUT => (below(a, i), b <= 1),
        _ => return 4,
    };
    match (pins, settings) {
        (false, _) => 5,
        (_, false) => 6,
        _ => 7,
    }
}

/// Checks all that a run is lent: the image's sizes, or a refusal 1 to 14 or 20.
pub fn check_run(call: &Call) -> Result<Sizes, u64> {
    let is_taken = |byte| byte <= 3;
    let sizes = check_cycles(call)?;
    check_length(10, call.state, state_length(sizes.registers))?;
    let registers = &call.state[..sizes.registers];
    check_bytes(11, registers, is_taken)?;
    if marked_registers(call.state) != Some(count_marked(registers)) {
        return Err(refusal(20, 0));
    }
    check_rows(call, sizes, 13, is_taken)
}

/// Checks all that a static run is lent: the image's sizes, or a refusal 1 to 10,
/// 12, 14 or 18.
pub fn check_static_run(call: &Call) -> Result<Sizes, u64> {
    let sizes = check_cycles(call)?;
    check_length(10, call.state, sizes.registers)?;
    check_bytes(18, call.state, codes::is_code)?;
    check_rows(call, sizes, 18, codes::is_code)
}

/// Checks the image of a call and its number of cycles.
#[inline(always)]
fn check_cycles(call: &Call) -> Result<Sizes, u64> {
    let sizes = check(call.image)?;
    match call.k > MOST_CYCLES {
        true => Err(refusal(9, 0)),
        false => Ok(sizes),
    }
}

/// Checks the rows and the outputs of a call. The number is the refusal of a byte
/// that is not taken.
#[inline(always)]
fn check_rows(
    call: &Call,
    sizes: Sizes,
    number: u64,
    is_taken: impl Fn(u8) -> bool,
) -> Result<Sizes, u64> {
    check_length(12, call.rows, call.k * sizes.inputs)?;
    check_bytes(number, call.rows, is_taken)?;
    check_length(14, call.outputs, call.k * sizes.outputs)?;
    Ok(sizes)
}

/// Refusal `number` where there are not `length` bytes.
pub fn check_length(number: u64, bytes: &[u8], length: usize) -> Result<(), u64> {
    match bytes.len() == length {
        true => Ok(()),
        false => Err(refusal(number, 0)),
    }
}

/// Refusal `number` where a byte is not taken. The first pass has no early end, so
/// that many bytes are tested at once.
#[inline(always)]
pub fn check_bytes(number: u64, bytes: &[u8], is_taken: impl Fn(u8) -> bool) -> Result<(), u64> {
    if bytes.iter().fold(false, |bad, byte| bad | !is_taken(*byte)) {
        let first = bytes.iter().position(|byte| !is_taken(*byte)).unwrap_or(0);
        return Err(refusal(number, first));
    }
    Ok(())
}
