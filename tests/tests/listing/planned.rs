//! Planned inputs: the document's example, and those that every program is given.

use crate::PROGRAM;
use tests::programs::planned::{self, PIECES};
use tests::programs::{counter, Pieces};
use tracker::kinds::{AND, INPUT, INVERTED, OUT, REG};
use tracker::{encode, operand_place, Net};

/// The program prints these lines of an image on the rows 2, 0, 1, 0.
fn prints(image: &[u8], lines: &str) {
    for size in PIECES {
        let ended = PROGRAM.run(Some(image), &[2, 0, 1, 0], Pieces::of(size));
        assert_eq!(String::from_utf8_lossy(&ended.lines), lines);
        assert_eq!(ended.said, "");
        assert!(ended.status.success());
    }
}

/// The example at the end of document 01, word for word.
#[test]
fn the_counter_of_the_document() {
    let lines = "0 0 clear\n1 3 flow 5\n2 2 flow 5\n3 0 clear\nend 4\n";
    prints(&counter(), lines);
}

/// Its register wakes as an untrusted 0, so that there is a flow in cycle 0. The
/// other lines are the same.
#[test]
fn the_counter_without_a_start() {
    let mut image = counter();
    image[operand_place(6, 1, 1)] = 2;
    let lines = "0 2 flow 5\n1 3 flow 5\n2 2 flow 5\n3 0 clear\nend 4\n";
    prints(&image, lines);
}

/// Inverted pins stand for its two NOTs, and its OUT is net 3. The other lines are
/// the same.
#[test]
fn the_counter_with_inverted_pins() {
    let image = encode(&[
        Net::new(INPUT, 0, 0, 0),
        Net::new(REG, 2, 0, 0),
        Net::new(AND, INVERTED + 1, INVERTED, 0),
        Net::new(OUT, 1, 1, 0),
    ]);
    let lines = "0 0 clear\n1 3 flow 3\n2 2 flow 3\n3 0 clear\nend 4\n";
    prints(&image, lines);
}

/// A value that is inverted at the clock and again at the OUT. The register wakes
/// as a trusted 0, which the OUT shows as 1. The rows are 2, 0, 1 and 0: the
/// register takes 3, 1, 0 and 1, and the OUT shows 2, 0 and 1 in the cycles 1 to 3.
#[test]
fn inverted_at_the_clock_and_at_the_out() {
    let image = encode(&[
        Net::new(INPUT, 0, 0, 0),
        Net::new(REG, INVERTED, 0, 0),
        Net::new(OUT, INVERTED + 1, 1, 0),
    ]);
    let lines = "0 1 clear\n1 2 flow 2\n2 0 clear\n3 1 clear\nend 4\n";
    prints(&image, lines);
}

#[test]
fn missing_short_and_long_files() {
    planned::missing_short_and_long_files(&PROGRAM);
}

#[test]
fn rows_in_slow_pieces() {
    planned::rows_in_slow_pieces(&PROGRAM);
}

#[test]
fn short_rows_and_bad_bytes() {
    planned::short_rows_and_bad_bytes(&PROGRAM);
}

/// Without outputs a line has a dash.
#[test]
fn no_inputs_and_no_outputs() {
    planned::no_inputs_and_no_outputs(&PROGRAM);
}

/// Lines of thousands of digits, and rows of thousands of bytes.
#[test]
fn thousands_of_outputs_and_inputs() {
    planned::thousands_of_outputs_and_inputs(&PROGRAM, 50);
}

/// Far more lines than any buffer holds, in all pieces.
#[test]
fn many_cycles() {
    planned::many_cycles(&PROGRAM, 200_000);
}
