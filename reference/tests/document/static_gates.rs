//! The gates of a static run: request L4 of document 02. Code 4 is an unknown
//! trusted bit, filled with 0 and 1, and code 6 an unknown untrusted one, filled
//! with 2 and 3. The value is known if all fillings agree, and the mark is 1 if
//! any filling marks. The bytes of the fillings are those of gates.rs.

use crate::codes::CODES;
use reference::{and_code, mux_code, not_code, or_code, xor_code};

/// A table of a gate: rows are the code of a, columns that of b, each in the
/// order 0, 1, 2, 3, 4, 6.
type Table = [[u8; 6]; 6];

/// The function gives the table's entry in row a and column b.
fn check_table(gate: impl Fn(u8, u8) -> u8, table: Table) {
    for (row, a) in table.iter().zip(CODES) {
        for (expected, b) in row.iter().zip(CODES) {
            assert_eq!(gate(a, b), *expected, "pins {a} and {b}");
        }
    }
}

// NOT of 0 and 1 is 1 and 0: unknown and trusted, so NOT 4 is 4. NOT of 2 and 3
// is 3 and 2: unknown and untrusted, so NOT 6 is 6.
#[test]
fn not_leaves_an_unknown_bit() {
    assert_eq!(not_code(4), 4);
    assert_eq!(not_code(6), 6);
    assert_eq!(CODES.map(not_code), [1, 0, 3, 2, 4, 6]);
}

// - AND(4, 0): 0 and 0, known. AND(4, 1): 0 and 1, unknown and trusted.
// - AND(2, 4): AND(2, 0) is 0 and AND(2, 1) is 2, so the value is 0 and the mark 1.
// - AND(3, 4): AND(3, 0) is 0 and AND(3, 1) is 3, unknown and untrusted.
// - AND(6, 0): AND(2, 0) and AND(3, 0) are 0. AND(6, 1): 2 and 3.
// - AND(6, 2): AND(2, 2) and AND(3, 2) are 2, known.
// - AND(4, 4): 0, 0, 0, 1. AND(4, 6): 0 and 0, then 2 and 3.
#[test]
fn and_of_unknown_bits() {
    assert_eq!(and_code(4, 0), 0);
    assert_eq!(and_code(4, 1), 4);
    assert_eq!(and_code(2, 4), 2);
    assert_eq!(and_code(3, 4), 6);
    assert_eq!(and_code(6, 0), 0);
    assert_eq!(and_code(6, 1), 6);
    assert_eq!(and_code(6, 2), 2);
    assert_eq!(and_code(4, 4), 4);
    assert_eq!(and_code(4, 6), 6);
}

// - OR(4, 1): 1 and 1, known. OR(4, 0): 0 and 1, unknown and trusted.
// - OR(2, 4): OR(2, 0) is 2 and OR(2, 1) is 1, unknown and untrusted.
// - OR(3, 4): OR(3, 0) is 3 and OR(3, 1) is 1, so the value is 1 and the mark 1.
// - OR(6, 1): OR(2, 1) and OR(3, 1) are 1. OR(6, 0): 2 and 3.
// - OR(6, 3): OR(2, 3) and OR(3, 3) are 3, known.
// - OR(4, 4): 0, 1, 1, 1. OR(4, 6): 2 and 3, then 1 and 1.
#[test]
fn or_of_unknown_bits() {
    assert_eq!(or_code(4, 1), 1);
    assert_eq!(or_code(4, 0), 4);
    assert_eq!(or_code(2, 4), 6);
    assert_eq!(or_code(3, 4), 3);
    assert_eq!(or_code(6, 1), 1);
    assert_eq!(or_code(6, 0), 6);
    assert_eq!(or_code(6, 3), 3);
    assert_eq!(or_code(4, 4), 4);
    assert_eq!(or_code(4, 6), 6);
}

// - XOR(4, 4): 0, 1, 1, 0. The two pins are filled apart, also on one net.
// - XOR(4, 2): XOR(0, 2) is 2 and XOR(1, 2) is 3, unknown and untrusted.
// - XOR(4, 1): 1 and 0. XOR(6, 0): 2 and 3. XOR(6, 6): 2, 3, 3, 2.
#[test]
fn xor_of_unknown_bits() {
    assert_eq!(xor_code(4, 4), 4);
    assert_eq!(xor_code(4, 2), 6);
    assert_eq!(xor_code(4, 1), 4);
    assert_eq!(xor_code(6, 0), 6);
    assert_eq!(xor_code(6, 6), 6);
}

// - MUX(1, 1, 4): a and b, both 1, known. MUX(0, 1, 4): 0 and 1.
// - MUX(0, 2, 4): 0 and 2, so the value is 0 and the mark 1.
// - MUX(1, 1, 6): the select is marked, but a and b do not differ and are
//   unmarked, so 1 for both values of it. MUX(0, 0, 6) likewise is 0.
// - MUX(1, 3, 6): a and b do not differ, but b is marked, so 3 for both.
// - MUX(0, 1, 6): value a and value b, marked since they differ: 2 and 3.
// - MUX(4, 1, 0): a, which is 0 and 1. MUX(4, 1, 1): b, which is 1.
// - MUX(0, 4, 2): value a, which is 0, and marked where b is filled with 1.
// - MUX(0, 4, 3): value b: 0, not marked, and 1, marked.
// - MUX(1, 4, 2): value a, which is 1, and marked where b is filled with 0.
// - MUX(4, 4, 2): value a: 0 and 1, and marked where b is filled with the other.
#[test]
fn mux_of_unknown_bits() {
    assert_eq!(mux_code(1, 1, 4), 1);
    assert_eq!(mux_code(0, 1, 4), 4);
    assert_eq!(mux_code(0, 2, 4), 2);
    assert_eq!(mux_code(1, 1, 6), 1);
    assert_eq!(mux_code(0, 0, 6), 0);
    assert_eq!(mux_code(1, 3, 6), 3);
    assert_eq!(mux_code(0, 1, 6), 6);
    assert_eq!(mux_code(4, 1, 0), 4);
    assert_eq!(mux_code(4, 1, 1), 1);
    assert_eq!(mux_code(0, 4, 2), 2);
    assert_eq!(mux_code(0, 4, 3), 6);
    assert_eq!(mux_code(1, 4, 2), 3);
    assert_eq!(mux_code(4, 4, 2), 6);
}

// The table of AND in gates.rs, and behind it column 4, which joins columns 0 and
// 1, and column 6, which joins columns 2 and 3. Rows 4 and 6 join rows likewise.
#[test]
fn the_static_table_of_and() {
    let table = [
        [0, 0, 0, 0, 0, 0],
        [0, 1, 2, 3, 4, 6],
        [0, 2, 2, 2, 2, 2],
        [0, 3, 2, 3, 6, 6],
        [0, 4, 2, 6, 4, 6],
        [0, 6, 2, 6, 6, 6],
    ];
    check_table(and_code, table);
}

// The table of OR in gates.rs, with columns and rows joined likewise.
#[test]
fn the_static_table_of_or() {
    let table = [
        [0, 1, 2, 3, 4, 6],
        [1, 1, 1, 1, 1, 1],
        [2, 1, 2, 3, 6, 6],
        [3, 1, 3, 3, 3, 3],
        [4, 1, 6, 3, 4, 6],
        [6, 1, 6, 3, 6, 6],
    ];
    check_table(or_code, table);
}

// The table of XOR in gates.rs. With an unknown pin the value is unknown. The
// mark is that of a or that of b.
#[test]
fn the_static_table_of_xor() {
    let table = [
        [0, 1, 2, 3, 4, 6],
        [1, 0, 3, 2, 4, 6],
        [2, 3, 2, 3, 6, 6],
        [3, 2, 3, 2, 6, 6],
        [4, 4, 6, 6, 4, 6],
        [6, 6, 6, 6, 6, 6],
    ];
    check_table(xor_code, table);
}

// One table for each c. With c = 0 the gate is a, with c = 1 it is b.
#[test]
fn the_static_table_of_mux_with_a_trusted_select() {
    let a = [0, 1, 2, 3, 4, 6].map(|a| [a; 6]);
    check_table(|a, b| mux_code(a, b, 0), a);
    check_table(|a, b| mux_code(a, b, 1), [[0, 1, 2, 3, 4, 6]; 6]);
}

// With c = 2 the value is that of a, unknown where a is, and with c = 3 that of
// b. In both each entry is marked but those of 0 and 0 and of 1 and 1: in every
// other entry a or b is marked, or they differ, or they are filled so that they
// do.
#[test]
fn the_static_table_of_mux_with_an_untrusted_select() {
    let marked = [2, 3, 2, 3, 6, 6];
    let mut of_a = marked.map(|a| [a; 6]);
    let mut of_b = [marked; 6];
    (of_a[0][0], of_a[1][1]) = (0, 1);
    (of_b[0][0], of_b[1][1]) = (0, 1);
    check_table(|a, b| mux_code(a, b, 2), of_a);
    check_table(|a, b| mux_code(a, b, 3), of_b);
}

// With c = 4 an entry joins a and b: its value is known where both are known and
// agree, and it is marked where one of them is.
#[test]
fn the_static_table_of_mux_with_an_unknown_trusted_select() {
    let table = [
        [0, 4, 2, 6, 4, 6],
        [4, 1, 6, 3, 4, 6],
        [2, 6, 2, 6, 6, 6],
        [6, 3, 6, 3, 6, 6],
        [4, 4, 6, 6, 4, 6],
        [6, 6, 6, 6, 6, 6],
    ];
    check_table(|a, b| mux_code(a, b, 4), table);
}

// With c = 6 an entry joins those of c = 2 and c = 3: its value is known where a
// and b are known and agree, and it is marked but for 0 and 0 and for 1 and 1.
#[test]
fn the_static_table_of_mux_with_an_unknown_untrusted_select() {
    let table = [
        [0, 6, 2, 6, 6, 6],
        [6, 1, 6, 3, 6, 6],
        [2, 6, 2, 6, 6, 6],
        [6, 3, 6, 3, 6, 6],
        [6, 6, 6, 6, 6, 6],
        [6, 6, 6, 6, 6, 6],
    ];
    check_table(|a, b| mux_code(a, b, 6), table);
}
