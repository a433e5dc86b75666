//! Stand-ins that work out their cycles by wrong rules, in steps and in runs alike, or
//! in static runs.

use crate::parts::{bytes, bytes_mut, change_registers, library_run, read};
use crate::rules::{Rules, RULES};
use crate::static_rules::STATIC_RULES;
use tests::coding::{number_of, CLEAR};
use tests::listed::net_of;
use tests::{Calls, LIBRARY};
use tracker::kinds::{CONST, INPUT, INVERTED, OUT, REG};
use tracker::Image;

/// The stand-in with the rules of this index.
pub const fn by_rule<const INDEX: usize>() -> Calls {
    Calls {
        step: step::<INDEX>,
        run: run::<INDEX, false>,
        ..LIBRARY
    }
}

/// The stand-in with the rules of this index in its static runs.
pub const fn by_static_rule<const INDEX: usize>() -> Calls {
    Calls {
        static_run: run::<INDEX, true>,
        ..LIBRARY
    }
}

/// What a pin of a net of this kind reads, by the index of the pin.
fn pin_byte(rules: &Rules, kind: u8, index: usize, pin: u16, nets: &[u8]) -> u8 {
    let byte = nets[net_of(pin)];
    if pin >= INVERTED {
        (rules.inverted)(kind, index, byte)
    } else {
        byte
    }
}

/// One cycle by rules: the nets and the verdict as an answer. The registers are
/// clocked.
fn cycle(rules: &Rules, image: Image, held: &mut [u8], row: &[u8]) -> (Vec<u8>, u64) {
    let mut nets = vec![0; image.sizes().nets];
    let (mut inputs, mut registers) = (row.iter(), held.iter());
    let mut verdict = CLEAR;
    for (number, net) in image.nets().enumerate() {
        let [a, b, c] = net.operands;
        let pin = |index, pin| pin_byte(rules, net.kind, index, pin, &nets);
        nets[number] = match net.kind {
            CONST => a as u8,
            INPUT => *inputs.next().unwrap(),
            REG => *registers.next().unwrap(),
            kind => (rules.gate)(kind, net.operands, [pin(0, a), pin(1, b), pin(2, c)]),
        };
        if net.kind == OUT && b == 1 && (rules.marked)(nets[number]) && verdict == CLEAR {
            verdict = number as u64;
        }
    }
    let registers = image.nets().filter(|net| net.kind == REG);
    for (byte, register) in held.iter_mut().zip(registers) {
        *byte = pin_byte(rules, REG, 0, register.operands[0], &nets);
    }
    (nets, verdict)
}

/// k cycles by rules: the outputs and the first flow as an answer. The registers are
/// left as after the last one.
fn cycles(rules: &Rules, image: Image, k: usize, held: &mut [u8], rows: &[u8]) -> (Vec<u8>, u64) {
    let inputs = image.sizes().inputs;
    let (mut filled, mut first) = (Vec::new(), k as u64 * 65_536 + CLEAR);
    for number in 0..k {
        let row = &rows[number * inputs..(number + 1) * inputs];
        let (nets, verdict) = cycle(rules, image, held, row);
        let bytes = image.kinds().iter().zip(nets);
        filled.extend(
            bytes
                .filter(|(kind, _)| **kind == OUT)
                .map(|(_, byte)| byte),
        );
        if verdict != CLEAR && first % 65_536 == CLEAR {
            first = number as u64 * 65_536 + verdict;
        }
    }
    (filled, first)
}

#[rustfmt::skip]
unsafe extern "C" fn step<const INDEX: usize>(
    image: *const u8, il: usize, state: *mut u8, sl: usize,
    row: *const u8, rl: usize, nets: *mut u8, nl: usize,
) -> u64 {
    let before = bytes(state, sl).to_vec();
    let mut answer = (LIBRARY.step)(image, il, state, sl, row, rl, nets, nl);
    if number_of(answer) != 0 {
        return answer;
    }
    change_registers::<false>(state, sl, |held| {
        held.copy_from_slice(&before[..held.len()]);
        let (filled, verdict) = cycle(&RULES[INDEX], read(image, il), held, bytes(row, rl));
        bytes_mut(nets, nl).copy_from_slice(&filled);
        answer = verdict;
    });
    answer
}

#[rustfmt::skip]
unsafe extern "C" fn run<const INDEX: usize, const STATIC: bool>(
    image: *const u8, il: usize, k: usize, state: *mut u8, sl: usize,
    rows: *const u8, rl: usize, outputs: *mut u8, ol: usize,
) -> u64 {
    let before = bytes(state, sl).to_vec();
    let rules = if STATIC { &STATIC_RULES[INDEX] } else { &RULES[INDEX] };
    let mut answer = library_run::<STATIC>()(image, il, k, state, sl, rows, rl, outputs, ol);
    if number_of(answer) != 0 {
        return answer;
    }
    change_registers::<STATIC>(state, sl, |held| {
        held.copy_from_slice(&before[..held.len()]);
        let (filled, first) = cycles(rules, read(image, il), k, held, bytes(rows, rl));
        bytes_mut(outputs, ol).copy_from_slice(&filled);
        answer = first;
    });
    answer
}
