//! Planned inputs that every program is given: files of all lengths, rows in pieces,
//! and sizes at the limits.

use std::time::Duration;

use crate::bytes::tracked;
use crate::programs::counter::counter;
use crate::programs::program::{Pieces, Program};
use crate::random::Random;
use tracker::kinds::{CONST, INPUT, OUT, REG};
use tracker::{encode, Net, MOST_NETS};

/// The rows are given in pieces of so many bytes.
pub const PIECES: [usize; 4] = [1, 7, 4095, 1 << 20];

/// Files that are missing, too short, or too long.
pub fn missing_short_and_long_files(program: &Program) {
    let good = encode(&vec![Net::new(INPUT, 0, 0, 0); MOST_NETS]);
    let rows = vec![1; 2 * MOST_NETS];
    program.same(None, &rows, Pieces::of(4095));
    for length in [0, 1, 7, 8, 57_351, 57_352] {
        program.same(Some(&good[..length]), &rows, Pieces::of(4095));
    }
    for more in [1, 2, 7, 8, 4096, 65_536, 1_000_000] {
        let long = [&good[..], &vec![0; more]].concat();
        program.same(Some(&long), &rows, Pieces::of(4095));
    }
    for size in [8193, 8194, 16_384, 65_535] {
        let too_many = encode(&vec![Net::new(CONST, 0, 0, 0); size]);
        program.same(Some(&too_many), &rows, Pieces::of(4095));
    }
}

/// Rows that come slowly, byte by byte, so that a read gives a part of a row.
pub fn rows_in_slow_pieces(program: &Program) {
    let nets = [
        Net::new(INPUT, 0, 0, 0),
        Net::new(INPUT, 0, 0, 0),
        Net::new(INPUT, 0, 0, 0),
        Net::new(OUT, 2, 1, 0),
        Net::new(OUT, 0, 0, 0),
    ];
    for (length, size) in [(12, 1), (13, 1), (14, 2), (15, 4), (0, 1)] {
        let rows = tracked(&mut Random::new(length as u64), length);
        let pieces = Pieces {
            size,
            pause: Duration::from_millis(5),
        };
        program.same(Some(&encode(&nets)), &rows, pieces);
    }
}

/// Rows with bad bytes, and last rows that are short.
pub fn short_rows_and_bad_bytes(program: &Program) {
    let image = encode(&[Net::new(INPUT, 0, 0, 0); 3]);
    let rows: [&[u8]; 8] = [
        &[0],
        &[0, 1, 2, 3],
        &[0, 1, 2, 3, 255],
        &[4, 0, 0, 0, 0, 0],
        &[0, 0, 0, 0, 0, 48],
        &[0, 0, 0, 255, 255, 255],
        &[0, 9],
        &[],
    ];
    for rows in rows {
        for size in PIECES {
            program.same(Some(&image), rows, Pieces::of(size));
        }
    }
}

/// Without inputs there is no row, whatever the input holds.
pub fn no_inputs_and_no_outputs(program: &Program) {
    let no_inputs = encode(&[Net::new(REG, 0, 1, 0), Net::new(OUT, 0, 1, 0)]);
    let no_outputs = encode(&[Net::new(INPUT, 0, 0, 0)]);
    let neither = encode(&[Net::new(CONST, 1, 0, 0)]);
    for image in [no_inputs, no_outputs, neither] {
        for rows in [&[][..], &[0][..], &[3, 2, 1, 0, 3][..], &[7][..]] {
            program.same(Some(&image), rows, Pieces::of(7));
        }
    }
}

/// Thousands of outputs, and rows of thousands of bytes, so many of them.
pub fn thousands_of_outputs_and_inputs(program: &Program, cycles: usize) {
    let random = &mut Random::new(1);
    let mut outs = vec![Net::new(OUT, 0, 0, 0); MOST_NETS];
    outs[0] = Net::new(INPUT, 0, 0, 0);
    outs[5000] = Net::new(OUT, 0, 1, 0);
    program.same(Some(&encode(&outs)), &tracked(random, 300), Pieces::of(7));
    let mut inputs = vec![Net::new(INPUT, 0, 0, 0); MOST_NETS];
    inputs[MOST_NETS - 1] = Net::new(OUT, MOST_NETS as u16 - 2, 1, 0);
    let rows = tracked(random, cycles * (MOST_NETS - 1));
    for size in [4095, 8191, 65_536] {
        program.same(Some(&encode(&inputs)), &rows, Pieces::of(size));
    }
    program.same(Some(&encode(&inputs)), &rows[1..], Pieces::of(4095));
}

/// 20,000 cycles in all pieces, for which at least so many bytes are printed.
pub fn many_cycles(program: &Program, least: usize) {
    let rows = tracked(&mut Random::new(2), 20_000);
    assert!(program.expected(Some(&counter()), &rows).len() >= least);
    for size in PIECES {
        program.same(Some(&counter()), &rows, Pieces::of(size));
    }
}
