//! Whoever gives a row and waits for its line gets it before the next row.

use crate::PROGRAM;
use tests::programs::{counter, Waiting};
use tracker::kinds::{AND, INPUT, OUT};
use tracker::{encode, Net};

#[test]
fn a_line_comes_before_the_next_row() {
    let folder = PROGRAM.folder(Some(&counter()));
    let mut program = Waiting::start(&PROGRAM, &folder);
    let rows = [2, 0, 1, 0];
    let lines = ["0 0 clear", "1 3 flow 5", "2 2 flow 5", "3 0 clear"];
    for (row, line) in rows.iter().zip(lines) {
        program.give(&[*row]);
        assert_eq!(program.line(), line);
    }
    assert_eq!(program.end(), ["end 4"]);
}

/// 0 INPUT; 1 INPUT; 2 AND(0, 1); 3 OUT 2, protected.
fn two_inputs() -> Vec<u8> {
    encode(&[
        Net::new(INPUT, 0, 0, 0),
        Net::new(INPUT, 0, 0, 0),
        Net::new(AND, 0, 1, 0),
        Net::new(OUT, 2, 1, 0),
    ])
}

#[test]
fn a_row_may_come_in_two_halves() {
    let folder = PROGRAM.folder(Some(&two_inputs()));
    let mut program = Waiting::start(&PROGRAM, &folder);
    program.give(&[1]);
    program.give(&[3]);
    assert_eq!(program.line(), "0 3 flow 3");
    // A whole row, and half of the next one behind it.
    program.give(&[0, 3, 1]);
    assert_eq!(program.line(), "1 0 clear");
    program.give(&[1]);
    assert_eq!(program.line(), "2 1 clear");
    program.give(&[0]);
    assert_eq!(program.end(), ["refused 12 0"]);
}
