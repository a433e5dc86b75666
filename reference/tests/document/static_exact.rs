//! The static gates against their rule, over all 216 triples of codes: request L4
//! of document 02, with the MUX of request L5.

use crate::codes::*;
use crate::images::INPUT;
use crate::samples::{gates_on, Sample};
use reference::{and_byte, mux_byte, not_byte, or_byte, xor_byte};
use reference::{and_code, mux_code, not_code, or_code, xor_code};

/// The code that joins these bytes, found from the sets of their values and
/// marks. An unknown bit is 4, and its mark adds 2.
fn join(bytes: impl Iterator<Item = u8>) -> u8 {
    let mut values = 0;
    let mut marks = 0;
    for byte in bytes {
        // Bit v of the set is there if value v is.
        values |= 1 << (byte & 1);
        marks |= byte & 2;
    }
    let value = [None, Some(0), Some(1), Some(4)][values];
    value.unwrap() + marks
}

/// All lists of three bytes that fill these codes, found among all lists of three
/// bytes.
fn chosen_fillings(codes: [u8; 3]) -> impl Iterator<Item = [u8; 3]> {
    let fits = move |byte: u8, code: u8| match code {
        4 => byte / 2 == 0,
        6 => byte / 2 == 1,
        _ => byte == code,
    };
    let all = (0..64).map(|n| [n / 16, n / 4 % 4, n % 4]);
    all.filter(move |bytes| (0..3).all(|pin| fits(bytes[pin], codes[pin])))
}

// The functions on codes give the join over all fillings of the functions on
// bytes, for all codes of the pins.
#[test]
fn each_gate_is_the_join_of_its_fillings() {
    for [a, b, c] in all_code_triples() {
        let fillings = || chosen_fillings([a, b, c]);
        assert_eq!(not_code(a), join(fillings().map(|f| not_byte(f[0]))));
        let and = fillings().map(|f| and_byte(f[0], f[1]));
        assert_eq!(and_code(a, b), join(and));
        let or = fillings().map(|f| or_byte(f[0], f[1]));
        assert_eq!(or_code(a, b), join(or));
        let xor = fillings().map(|f| xor_byte(f[0], f[1]));
        assert_eq!(xor_code(a, b), join(xor));
        let mux = fillings().map(|f| mux_byte(f[0], f[1], f[2]));
        assert_eq!(mux_code(a, b, c), join(mux));
    }
}

/// The last output byte of each cycle. It is that of the OUT of the gate.
fn last_outputs(source: &Sample, outputs: &[u8]) -> Vec<u8> {
    let cycles = outputs.chunks(source.outputs);
    cycles.map(|cycle| cycle[source.outputs - 1]).collect()
}

// Three INPUTs, one gate or OUT on them with each choice of its pins inverted,
// and an OUT: one static run over all 216 rows. In each cycle its output is the
// join of the outputs of a run over all fillings of the row.
#[test]
fn each_gate_of_a_static_run_is_the_join_of_runs() {
    let rows = all_code_triples();
    for source in gates_on(INPUT) {
        let (_, outputs, _) = source.static_run(&[], 216, &rows.concat());
        for (row, code) in rows.iter().zip(last_outputs(&source, &outputs)) {
            let fillings = all_fillings(row);
            let (_, filled, _) = source.run(&[0, 0], fillings.len(), &fillings.concat());
            let filled = last_outputs(&source, &filled);
            assert_eq!(code, join(filled.into_iter()), "{row:?}");
        }
    }
}

// A triple has 1 filling for each known pin and 2 for each unknown one. The codes
// of a pin have 4 + 2 * 2 = 8 fillings in all, and so the triples have 8 * 8 * 8.
#[test]
fn the_fillings_of_all_triples() {
    let mut count = 0;
    for codes in all_code_triples() {
        let mut one_way: Vec<_> = chosen_fillings(codes).map(|f| f.to_vec()).collect();
        let mut other_way = all_fillings(&codes);
        one_way.sort();
        other_way.sort();
        assert_eq!(one_way, other_way);
        count += one_way.len();
    }
    assert_eq!(count, 512);
}

/// The code of MUX, filled and joined as above, with the mark that document 01
/// gives it: with c marked, it is marked when any of a, b, ta, tb is 1.
fn mux_marked_as_composed(a: u8, b: u8, c: u8) -> u8 {
    let byte = |[a, b, c]: [u8; 3]| {
        let chosen = [a, b][usize::from(c % 2)];
        match c / 2 {
            0 => chosen,
            _ => chosen % 2 + 2 * u8::from(a != 0 || b != 0),
        }
    };
    join(chosen_fillings([a, b, c]).map(byte))
}

// Request L5 marks a filling less only where c is marked and a and b are both the
// byte 1. A code is marked less only where all its fillings are of this form: a
// and b are 1 and c is 2, 3 or 6. These are three of the 216 triples, with the
// value 1.
#[test]
fn the_truth_table_of_mux_unmarks_three_triples() {
    let mut found = Vec::new();
    for [a, b, c] in all_code_triples() {
        let composed = mux_marked_as_composed(a, b, c);
        if mux_code(a, b, c) != composed {
            found.push(([a, b, c], mux_code(a, b, c), composed));
        }
    }
    let three = [([1, 1, 2], 1, 3), ([1, 1, 3], 1, 3), ([1, 1, 6], 1, 3)];
    assert_eq!(found, three);
}

/// A choice between a and b made of a NOT, two ANDs and an OR, all of them static
/// gates.
fn composed_mux(a: u8, b: u8, c: u8) -> u8 {
    let from_a = and_code(a, not_code(c));
    let from_b = and_code(b, c);
    or_code(from_a, from_b)
}

// The composition reads the select at each AND, so it does not see that one of
// them passes. It differs only where both pins have the value 1:
//
// - With an unknown select it has an unknown value, where that of MUX is known.
//   With a and b among 1 and 3 and c among 4 and 6 these are 8 triples.
// - With a marked select it is marked also where a and b are trusted, where MUX is
//   not. With a = b = 1 and c among 2, 3 and 6 these are 3 triples.
//
// The triple 1, 1, 6 is one of both, so they are 10 in all.
#[test]
fn mux_differs_from_the_composition_of_static_gates_at_ten_triples() {
    let differs = |[a, b, c]: &[u8; 3]| mux_code(*a, *b, *c) != composed_mux(*a, *b, *c);
    let found: Vec<_> = all_code_triples().into_iter().filter(differs).collect();
    let mut expected = vec![[1, 1, 2], [1, 1, 3]];
    for a in [1, 3] {
        for b in [1, 3] {
            for c in [4, 6] {
                expected.push([a, b, c]);
            }
        }
    }
    assert_eq!(found, expected);
    assert_eq!(found.len(), 10);
}

// By hand, as AND, AND and OR: with c = 2, OR(3, 2), and with c = 3, OR(2, 3),
// both 3. With c = 4 each AND of 1 is 4 and of 3 is 6, and with c = 6 each is 6:
// their OR is 4 if both are 4, otherwise 6. MUX has the value 1. With c = 4 its
// mark is that of a or b. With c among 2, 3 and 6 a and b do not differ, so it is
// that as well.
#[test]
fn the_ten_triples() {
    let ten = [
        ([1, 1, 2], 1, 3),
        ([1, 1, 3], 1, 3),
        ([1, 1, 4], 1, 4),
        ([1, 3, 4], 3, 6),
        ([3, 1, 4], 3, 6),
        ([3, 3, 4], 3, 6),
        ([1, 1, 6], 1, 6),
        ([1, 3, 6], 3, 6),
        ([3, 1, 6], 3, 6),
        ([3, 3, 6], 3, 6),
    ];
    for ([a, b, c], mux, composed) in ten {
        assert_eq!(mux_code(a, b, c), mux);
        assert_eq!(composed_mux(a, b, c), composed);
    }
}

// At every triple the composition covers MUX: it is marked if MUX is, and it
// leaves open what MUX leaves open.
#[test]
fn the_composition_of_static_gates_covers_mux() {
    for [a, b, c] in all_code_triples() {
        assert!(covers(composed_mux(a, b, c), mux_code(a, b, c)));
    }
}
