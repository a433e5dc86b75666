//! Stand-ins with a wrong rule of static runs: of a gate, of an inverted pin, or of a
//! flow.

use crate::by_rule::by_static_rule;
use crate::rules::{right, Rules};
use reference::{and_code, mux_code, not_code, or_code, xor_code};
use tests::listed::{net_of, pins_of};
use tests::Calls;
use tracker::codes::{is_marked, UNKNOWN_TRUSTED, UNKNOWN_UNTRUSTED};
use tracker::kinds::{AND, INVERTED, MUX, NOT, OR, XOR};

const RIGHT: Rules = Rules {
    gate: right_code,
    inverted: |_, _, code| not_code(code),
    marked: is_marked,
};

/// All rules of static runs, each with one that is wrong.
#[rustfmt::skip]
pub const STATIC_RULES: [Rules; 10] = [
    Rules { gate: |kind, _, codes| joined(any, &results(kind, codes.map(only_0_for_4))), ..RIGHT },
    Rules { gate: |kind, _, codes| joined(any, &results(kind, codes.map(only_2_for_6))), ..RIGHT },
    Rules { gate: |kind, _, codes| joined(all, &results(kind, codes.map(fillings))), ..RIGHT },
    Rules { gate: |kind, _, codes| joined(first, &results(kind, codes.map(fillings))), ..RIGHT },
    Rules { gate: composed_mux, ..RIGHT },
    Rules { gate: nets_filled, ..RIGHT },
    Rules { gate: unknown_by_any_pin, ..RIGHT },
    Rules { gate: unknown_is_trusted, ..RIGHT },
    Rules { inverted: |_, _, code| code ^ 1, ..RIGHT },
    Rules { marked: |code| code >= 2, ..RIGHT },
];

/// Fills 4 with 0 alone.
pub const ONLY_0_FOR_4: Calls = by_static_rule::<0>();

/// Fills 6 with 2 alone.
pub const ONLY_2_FOR_6: Calls = by_static_rule::<1>();

/// Marks a gate only if all fillings mark it.
pub const ALL_MARK: Calls = by_static_rule::<2>();

/// Marks a gate if the filling with values 0 marks it.
pub const FIRST_MARKS: Calls = by_static_rule::<3>();

/// Composes a MUX of a NOT, two ANDs and an OR, each of which is filled by itself.
pub const COMPOSED_MUX: Calls = by_static_rule::<4>();

/// Fills a net once for all pins of a gate that read it.
pub const NETS_FILLED: Calls = by_static_rule::<5>();

/// Takes a value for unknown whenever a pin is unknown.
pub const UNKNOWN_BY_ANY_PIN: Calls = by_static_rule::<6>();

/// Drops the mark of an unknown value.
pub const UNKNOWN_IS_TRUSTED: Calls = by_static_rule::<7>();

/// Inverts unknown codes in their lowest bit, as it inverts known ones.
pub const INVERTS_UNKNOWN: Calls = by_static_rule::<8>();

/// Takes 4 for marked in its verdicts.
pub const FLOW_BY_4: Calls = by_static_rule::<9>();

fn right_code(kind: u8, _: [u16; 3], [a, b, c]: [u8; 3]) -> u8 {
    match kind {
        NOT => not_code(a),
        AND => and_code(a, b),
        OR => or_code(a, b),
        XOR => xor_code(a, b),
        MUX => mux_code(a, b, c),
        _ => a,
    }
}

/// The bytes of a code.
fn fillings(code: u8) -> &'static [u8] {
    match code {
        UNKNOWN_TRUSTED => &[0, 1],
        UNKNOWN_UNTRUSTED => &[2, 3],
        known => &[[0], [1], [2], [3]][usize::from(known)],
    }
}

fn only_0_for_4(code: u8) -> &'static [u8] {
    match code {
        UNKNOWN_TRUSTED => &[0],
        _ => fillings(code),
    }
}

fn only_2_for_6(code: u8) -> &'static [u8] {
    match code {
        UNKNOWN_UNTRUSTED => &[2],
        _ => fillings(code),
    }
}

/// The bytes of a gate for all fillings of its pins.
fn results(kind: u8, fillings: [&[u8]; 3]) -> Vec<u8> {
    let all = all_fillings(fillings).into_iter();
    all.map(|bytes| right(kind, [0; 3], bytes)).collect()
}

/// All fillings of three pins.
fn all_fillings([all_a, all_b, all_c]: [&[u8]; 3]) -> Vec<[u8; 3]> {
    let mut all = Vec::new();
    for a in all_a {
        for b in all_b {
            all.extend(all_c.iter().map(|c| [*a, *b, *c]));
        }
    }
    all
}

/// The code of bytes, with a rule for its mark.
fn joined(marked: fn(&[u8]) -> bool, bytes: &[u8]) -> u8 {
    let mark = 2 * u8::from(marked(bytes));
    if bytes.iter().all(|byte| byte % 2 == bytes[0] % 2) {
        bytes[0] % 2 + mark
    } else {
        UNKNOWN_TRUSTED + mark
    }
}

/// Any of the bytes is marked, which is the right rule.
fn any(bytes: &[u8]) -> bool {
    bytes.iter().any(|byte| is_marked(*byte))
}

fn all(bytes: &[u8]) -> bool {
    bytes.iter().all(|byte| is_marked(*byte))
}

fn first(bytes: &[u8]) -> bool {
    is_marked(bytes[0])
}

fn composed_mux(kind: u8, operands: [u16; 3], [a, b, c]: [u8; 3]) -> u8 {
    match kind {
        MUX => or_code(and_code(a, not_code(c)), and_code(b, c)),
        _ => right_code(kind, operands, [a, b, c]),
    }
}

/// Leaves out the fillings in which two pins on one net have different values of it.
fn nets_filled(kind: u8, operands: [u16; 3], codes: [u8; 3]) -> u8 {
    let values = |bytes: &[u8; 3]| {
        let inverted = operands.map(|operand| u8::from(operand >= INVERTED));
        [0, 1, 2].map(|index| (bytes[index] % 2) ^ inverted[index])
    };
    let nets = operands.map(net_of);
    let agree = |bytes: &[u8; 3]| {
        let values = values(bytes);
        let differ = |one: usize, other: usize| {
            other < pins_of(kind) && nets[one] == nets[other] && values[one] != values[other]
        };
        !differ(0, 1) && !differ(0, 2) && !differ(1, 2)
    };
    let all = all_fillings(codes.map(fillings)).into_iter().filter(agree);
    let results: Vec<u8> = all.map(|bytes| right(kind, operands, bytes)).collect();
    joined(any, &results)
}

fn unknown_by_any_pin(kind: u8, operands: [u16; 3], codes: [u8; 3]) -> u8 {
    let code = right_code(kind, operands, codes);
    if codes[..pins_of(kind)].iter().all(|code| *code < 4) {
        return code;
    }
    UNKNOWN_TRUSTED + 2 * u8::from(is_marked(code))
}

fn unknown_is_trusted(kind: u8, operands: [u16; 3], codes: [u8; 3]) -> u8 {
    match right_code(kind, operands, codes) {
        UNKNOWN_UNTRUSTED => UNKNOWN_TRUSTED,
        code => code,
    }
}
