//! The gate functions on bytes: C1 to C11 and full tables. MUX and C10 follow
//! request L5 of document 02.

use crate::counter::counter_run;
use crate::samples::all_triples;
use reference::{and_byte, mux_byte, not_byte, or_byte, xor_byte};

#[test]
fn c1_to_c3_are_and() {
    assert_eq!(and_byte(0, 2), 0);
    assert_eq!(and_byte(1, 2), 2);
    assert_eq!(and_byte(2, 2), 2);
}

#[test]
fn c4_and_c5_are_or() {
    assert_eq!(or_byte(1, 3), 1);
    assert_eq!(or_byte(0, 3), 3);
}

#[test]
fn c6_is_xor() {
    assert_eq!(xor_byte(1, 3), 2);
}

#[test]
fn c7_to_c11_are_mux() {
    assert_eq!(mux_byte(0, 3, 0), 0);
    assert_eq!(mux_byte(0, 3, 1), 3);
    assert_eq!(mux_byte(0, 0, 2), 0);
    assert_eq!(mux_byte(1, 1, 2), 1);
    assert_eq!(mux_byte(0, 1, 2), 2);
}

#[test]
fn c12_is_the_counter() {
    assert_eq!(counter_run().1, [0, 3, 2, 0]);
}

// The value is inverted and the mark kept: 0, 1, 2, 3 become 1, 0, 3, 2.
#[test]
fn the_table_of_not() {
    assert_eq!([0, 1, 2, 3].map(not_byte), [1, 0, 3, 2]);
}

// Rows are a, columns are b. With a = 0 the value is 0, and none of the
// three terms holds. With a = 1 the gate is b. With a = 2 the value is 0 and the mark
// is b or tb. With a = 3 the value is that of b and the mark is b or tb.
#[test]
fn the_table_of_and() {
    let table = [[0, 0, 0, 0], [0, 1, 2, 3], [0, 2, 2, 2], [0, 3, 2, 3]];
    check_table(and_byte, table);
}

// Rows are a, columns are b. With a = 0 the gate is b. With a = 1 the value is
// 1 and no term holds. With a = 2 the value is that of b and the mark is (not
// b) or tb. With a = 3 the value is 1 and the mark is (not b) or tb.
#[test]
fn the_table_of_or() {
    let table = [[0, 1, 2, 3], [1, 1, 1, 1], [2, 1, 2, 3], [3, 1, 3, 3]];
    check_table(or_byte, table);
}

// Rows are a, columns are b. The value is 1 where the values differ, and the
// mark is ta or tb.
#[test]
fn the_table_of_xor() {
    let table = [[0, 1, 2, 3], [1, 0, 3, 2], [2, 3, 2, 3], [3, 2, 3, 2]];
    check_table(xor_byte, table);
}

// One table for each c; rows are a, columns are b. With c = 0 the gate is a,
// with c = 1 it is b. With c = 2 it has the value of a, with c = 3 that of b, and
// in both it is marked if a and b differ or ta or tb is 1: unless a and b are both
// the byte 0 or both the byte 1.
#[test]
fn the_table_of_mux() {
    let tables = [
        [[0, 0, 0, 0], [1, 1, 1, 1], [2, 2, 2, 2], [3, 3, 3, 3]],
        [[0, 1, 2, 3], [0, 1, 2, 3], [0, 1, 2, 3], [0, 1, 2, 3]],
        [[0, 2, 2, 2], [3, 1, 3, 3], [2, 2, 2, 2], [3, 3, 3, 3]],
        [[0, 3, 2, 3], [2, 1, 2, 3], [2, 3, 2, 3], [2, 3, 2, 3]],
    ];
    for (c, table) in tables.into_iter().enumerate() {
        check_table(|a, b| mux_byte(a, b, c as u8), table);
    }
}

/// The function gives the table's entry in row a and column b.
fn check_table(gate: impl Fn(u8, u8) -> u8, table: [[u8; 4]; 4]) {
    for (a, row) in table.iter().enumerate() {
        for (b, expected) in row.iter().enumerate() {
            assert_eq!(gate(a as u8, b as u8), *expected, "pins {a} and {b}");
        }
    }
}

// A NOT, two ANDs and an OR choose between a and b as a MUX does. They give the
// byte of the MUX for 62 of the 64 triples. With a = b = 1 and a marked c, both
// ANDs are marked, one with the value 1 and one with 0: OR(3, 2) or OR(2, 3),
// which are 3. The MUX is 1 there, since a and b are equal and unmarked.
#[test]
fn mux_is_marked_less_than_its_composition_at_two_triples() {
    let mut found = Vec::new();
    for [a, b, c] in all_triples() {
        let from_a = and_byte(a, not_byte(c));
        let from_b = and_byte(b, c);
        let composed = or_byte(from_a, from_b);
        if mux_byte(a, b, c) != composed {
            found.push(([a, b, c], mux_byte(a, b, c), composed));
        }
    }
    assert_eq!(found, [([1, 1, 2], 1, 3), ([1, 1, 3], 1, 3)]);
}

// Document 01's formulas for AND, OR and XOR are symmetric in a and b.
#[test]
fn two_pin_gates_are_symmetric() {
    for a in 0..4 {
        for b in 0..4 {
            assert_eq!(and_byte(a, b), and_byte(b, a));
            assert_eq!(or_byte(a, b), or_byte(b, a));
            assert_eq!(xor_byte(a, b), xor_byte(b, a));
        }
    }
}
