//! Whoever gives the rows of a page and waits for it gets it before the next row.

use crate::{line, PROGRAM};
use tests::programs::{counter, two_inputs, Waiting};

/// On rows of 0 the register of the counter is 0 and 1 in turn.
#[test]
fn a_page_comes_before_the_next_row() {
    let folder = PROGRAM.folder(Some(&counter()));
    let mut program = Waiting::start(&PROGRAM, &folder);
    for first in ["0", "64", "128"] {
        for _ in 0..64 {
            program.give(&[0]);
        }
        assert_eq!(program.line(), line("cycle", first));
        assert_eq!(program.line(), line("    5", &"01".repeat(32)));
    }
    program.give(&[0, 0, 0]);
    let last = [line("cycle", "192"), line("    5", "010")];
    assert_eq!(program.end(), last);
}

/// The 64th row comes in two halves, with half of the next row behind it.
#[test]
fn a_row_may_come_in_two_halves() {
    let folder = PROGRAM.folder(Some(&two_inputs()));
    let mut program = Waiting::start(&PROGRAM, &folder);
    program.give(&[3; 2 * 63]);
    program.give(&[2]);
    program.give(&[0, 1]);
    assert_eq!(program.line(), line("cycle", "0"));
    let signs = ["h".repeat(63), String::from("l")].concat();
    assert_eq!(program.line(), line("    2", &signs));
    assert_eq!(program.end(), ["refused 12 0"]);
}
