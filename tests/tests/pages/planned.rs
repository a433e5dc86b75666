//! Planned inputs: bad bytes and short rows at many places, and those that every
//! program is given.

use crate::PROGRAM;
use tests::bytes::tracked;
use tests::programs::planned::{self, PIECES};
use tests::programs::Pieces;
use tests::random::Random;
use tracker::kinds::{INPUT, OUT};
use tracker::{encode, Net};

/// Cycles in the middle of a page, and those next to the first one of a page.
const CYCLES: [usize; 10] = [0, 1, 31, 62, 63, 64, 65, 127, 128, 150];

/// Three inputs, and an OUT on each of them.
fn three_inputs() -> Vec<u8> {
    let inputs = [Net::new(INPUT, 0, 0, 0); 3];
    let outs = [0, 1, 2].map(|input| Net::new(OUT, input, 1, 0));
    encode(&[inputs, outs].concat())
}

/// Each place of a row has the bad byte, with good rows and a short one behind it.
#[test]
fn bad_bytes_at_many_places() {
    let good = tracked(&mut Random::new(4), 3 * 151 + 1);
    for (number, cycle) in CYCLES.into_iter().enumerate() {
        for place in 0..3 {
            let mut rows = good.clone();
            rows[3 * cycle + place] = [4, 7, 255][place];
            let last = format!("refused 13 {place}\n");
            ends_with(&rows, number, &last);
        }
    }
}

/// The input ends behind one or two bytes of a row, which may be bad.
#[test]
fn short_rows_at_many_places() {
    let good = tracked(&mut Random::new(5), 3 * 151);
    for (number, cycle) in CYCLES.into_iter().enumerate() {
        for length in [1, 2] {
            let mut rows = good[..3 * cycle + length].to_vec();
            ends_with(&rows, number, "refused 12 0\n");
            rows[3 * cycle] = 4;
            ends_with(&rows, number, "refused 12 0\n");
        }
        let rows = &good[..3 * cycle];
        PROGRAM.same(Some(&three_inputs()), rows, Pieces::of(4095));
    }
}

/// Asks for the reference's pages, and for this last line behind them.
fn ends_with(rows: &[u8], number: usize, last: &str) {
    let expected = PROGRAM.expected(Some(&three_inputs()), rows);
    assert!(expected.ends_with(last.as_bytes()));
    let pieces = Pieces::of(PIECES[number % PIECES.len()]);
    PROGRAM.same(Some(&three_inputs()), rows, pieces);
}

#[test]
fn missing_short_and_long_files() {
    planned::missing_short_and_long_files(&PROGRAM);
}

#[test]
fn rows_in_slow_pieces() {
    planned::rows_in_slow_pieces(&PROGRAM);
}

#[test]
fn short_rows_and_bad_bytes() {
    planned::short_rows_and_bad_bytes(&PROGRAM);
}

/// Without inputs nothing is printed, and without outputs headings alone.
#[test]
fn no_inputs_and_no_outputs() {
    planned::no_inputs_and_no_outputs(&PROGRAM);
}

/// Pages of thousands of lines, and rows of thousands of bytes, for three pages.
#[test]
fn thousands_of_outputs_and_inputs() {
    planned::thousands_of_outputs_and_inputs(&PROGRAM, 130);
}

/// 313 pages of two lines.
#[test]
fn many_cycles() {
    planned::many_cycles(&PROGRAM, 313 * 2 * 71);
}
