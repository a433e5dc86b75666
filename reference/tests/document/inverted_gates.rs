//! Gates with inverted pins: request L3 of document 02. Such a pin reads the
//! value of its net inverted and the mark unchanged. A net's byte is value + 2 *
//! mark, so a pin on a net of byte 0, 1, 2 or 3 reads 1, 0, 3 or 2.

use crate::images::*;
use crate::pins::inverted;
use crate::samples::sample;

/// A table of a gate: rows are the byte of net a, columns that of net b.
type Table = [[u8; 4]; 4];

/// The byte of this gate on three INPUTs with the given bytes. The INPUTs have
/// the row's bytes themselves.
fn gate_byte(gate: Entry, row: [u8; 3]) -> u8 {
    let inputs = [(INPUT, 0, 0, 0); 3];
    let source = sample(&[inputs[0], inputs[1], inputs[2], gate]);
    let (_, nets, _) = source.step(&[0, 0], &row);
    assert_eq!(nets[..3], row);
    nets[3]
}

/// The gate has the table's bytes for all bytes of nets 0 and 1, with this byte
/// of net 2.
fn has_table(gate: Entry, c: u8, table: Table) {
    for (a, row) in table.iter().enumerate() {
        for (b, expected) in row.iter().enumerate() {
            let byte = gate_byte(gate, [a as u8, b as u8, c]);
            assert_eq!(byte, *expected, "{gate:?} on {a}, {b}, {c}");
        }
    }
}

// NOT of 1, 0, 3, 2 is 0, 1, 2, 3. The pin is on each of the three nets.
#[test]
fn not_of_an_inverted_pin_is_the_byte_itself() {
    for byte in 0..=3 {
        assert_eq!(gate_byte((NOT, inverted(0), 0, 0), [byte, 0, 0]), byte);
        assert_eq!(gate_byte((NOT, inverted(1), 0, 0), [0, byte, 0]), byte);
        assert_eq!(gate_byte((NOT, inverted(2), 0, 0), [0, 0, byte]), byte);
    }
}

// The table of AND in gates.rs. With a inverted its rows 0 and 1 change places,
// and so do 2 and 3; with b inverted its columns do.
#[test]
fn and_with_inverted_pins() {
    let (a, b) = (inverted(0), inverted(1));
    let table = [[0, 1, 2, 3], [0, 0, 0, 0], [0, 3, 2, 3], [0, 2, 2, 2]];
    has_table((AND, a, 1, 0), 0, table);
    let table = [[0, 0, 0, 0], [1, 0, 3, 2], [2, 0, 2, 2], [3, 0, 3, 2]];
    has_table((AND, 0, b, 0), 0, table);
    let table = [[1, 0, 3, 2], [0, 0, 0, 0], [3, 0, 3, 2], [2, 0, 2, 2]];
    has_table((AND, a, b, 0), 0, table);
}

// The table of OR in gates.rs, with rows and columns exchanged likewise.
#[test]
fn or_with_inverted_pins() {
    let (a, b) = (inverted(0), inverted(1));
    let table = [[1, 1, 1, 1], [0, 1, 2, 3], [3, 1, 3, 3], [2, 1, 2, 3]];
    has_table((OR, a, 1, 0), 0, table);
    let table = [[1, 0, 3, 2], [1, 1, 1, 1], [1, 2, 3, 2], [1, 3, 3, 3]];
    has_table((OR, 0, b, 0), 0, table);
    let table = [[1, 1, 1, 1], [1, 0, 3, 2], [1, 3, 3, 3], [1, 2, 3, 2]];
    has_table((OR, a, b, 0), 0, table);
}

// The table of XOR in gates.rs, with rows and columns exchanged likewise. With
// one pin inverted the value is 1 where the values are equal, and with both it
// is that of XOR. The mark is ta or tb.
#[test]
fn xor_with_inverted_pins() {
    let (a, b) = (inverted(0), inverted(1));
    let table = [[1, 0, 3, 2], [0, 1, 2, 3], [3, 2, 3, 2], [2, 3, 2, 3]];
    has_table((XOR, a, 1, 0), 0, table);
    has_table((XOR, 0, b, 0), 0, table);
    let table = [[0, 1, 2, 3], [1, 0, 3, 2], [2, 3, 2, 3], [3, 2, 3, 2]];
    has_table((XOR, a, b, 0), 0, table);
}

// The tables of MUX for c = 0 to 3 in gates.rs, with rows exchanged. With c = 0
// it is a inverted, and with c = 1 it is b. With c = 2 or 3 it is marked unless
// net a has the byte 1 and net b the byte 0, or net a the byte 0 and net b the
// byte 1.
#[test]
fn mux_with_a_inverted() {
    let gate = (MUX, inverted(0), 1, 2);
    let tables = [
        [[1, 1, 1, 1], [0, 0, 0, 0], [3, 3, 3, 3], [2, 2, 2, 2]],
        [[0, 1, 2, 3], [0, 1, 2, 3], [0, 1, 2, 3], [0, 1, 2, 3]],
        [[3, 1, 3, 3], [0, 2, 2, 2], [3, 3, 3, 3], [2, 2, 2, 2]],
        [[2, 1, 2, 3], [0, 3, 2, 3], [2, 3, 2, 3], [2, 3, 2, 3]],
    ];
    for (c, table) in tables.into_iter().enumerate() {
        has_table(gate, c as u8, table);
    }
}

// The tables of MUX with columns exchanged. With c = 0 it is a, and with c = 1
// it is b inverted. With c = 2 or 3 it is marked unless net a has the byte 0 and
// net b the byte 1, or net a the byte 1 and net b the byte 0.
#[test]
fn mux_with_b_inverted() {
    let gate = (MUX, 0, inverted(1), 2);
    let tables = [
        [[0, 0, 0, 0], [1, 1, 1, 1], [2, 2, 2, 2], [3, 3, 3, 3]],
        [[1, 0, 3, 2], [1, 0, 3, 2], [1, 0, 3, 2], [1, 0, 3, 2]],
        [[2, 0, 2, 2], [1, 3, 3, 3], [2, 2, 2, 2], [3, 3, 3, 3]],
        [[3, 0, 3, 2], [1, 2, 3, 2], [3, 2, 3, 2], [3, 2, 3, 2]],
    ];
    for (c, table) in tables.into_iter().enumerate() {
        has_table(gate, c as u8, table);
    }
}

// The tables of MUX for c = 1, 0, 3, 2 in this order: it gives b where net c has
// the value 0, and a where it has the value 1.
#[test]
fn mux_with_c_inverted() {
    let gate = (MUX, 0, 1, inverted(2));
    let tables = [
        [[0, 1, 2, 3], [0, 1, 2, 3], [0, 1, 2, 3], [0, 1, 2, 3]],
        [[0, 0, 0, 0], [1, 1, 1, 1], [2, 2, 2, 2], [3, 3, 3, 3]],
        [[0, 3, 2, 3], [2, 1, 2, 3], [2, 3, 2, 3], [2, 3, 2, 3]],
        [[0, 2, 2, 2], [3, 1, 3, 3], [2, 2, 2, 2], [3, 3, 3, 3]],
    ];
    for (c, table) in tables.into_iter().enumerate() {
        has_table(gate, c as u8, table);
    }
}

// With a and b inverted, two nets of byte 0 and two of byte 1 are both equal and
// unmarked: they give 1 and 0 also with a marked select. A net of byte 0 and one
// of byte 1 differ, and the value is that of the chosen net inverted. So it is,
// too, with c inverted, which chooses the other of the two.
#[test]
fn a_marked_select_between_two_inverted_pins() {
    let (a, b, c) = (inverted(0), inverted(1), inverted(2));
    for select in [2, 3] {
        for gate in [(MUX, a, b, 2), (MUX, a, b, c)] {
            assert_eq!(gate_byte(gate, [0, 0, select]), 1);
            assert_eq!(gate_byte(gate, [1, 1, select]), 0);
        }
    }
    assert_eq!(gate_byte((MUX, a, b, 2), [0, 1, 2]), 3);
    assert_eq!(gate_byte((MUX, a, b, 2), [0, 1, 3]), 2);
    assert_eq!(gate_byte((MUX, a, b, c), [0, 1, 2]), 2);
    assert_eq!(gate_byte((MUX, a, b, c), [0, 1, 3]), 3);
}

// An inverted pin leaves its net as it is: the OUTs behind it read the INPUT's
// byte. XOR of the byte and its inverse has the value 1 and is marked if the
// byte is. AND of them has the value 0: of 0 and 1 it is 0, and of 2 and 3 it is
// 2, in both orders.
#[test]
fn the_same_net_plain_and_inverted() {
    let source = sample(&[
        (INPUT, 0, 0, 0),
        (XOR, 0, inverted(0), 0),
        (AND, inverted(0), 0, 0),
        (OUT, inverted(0), 0, 0),
        (OUT, 0, 0, 0),
    ]);
    let cycles = [
        [0, 1, 0, 1, 0],
        [1, 1, 0, 0, 1],
        [2, 3, 2, 3, 2],
        [3, 3, 2, 2, 3],
    ];
    for nets in cycles {
        assert_eq!(source.step(&[0, 0], &nets[..1]).1, nets);
    }
}
