//! The times of pages.

use std::hint::black_box;
use std::time::Instant;

use super::agree::assert_agree;
use super::cases::{cases, Bytes, Case, CYCLES};
use super::WRITERS;
use crate::aligned::{print, row};
use crate::rounds::{lowest, median, ratio};

/// About how many signs are written at least in the calls that are timed together,
/// and how often each writer is timed, in turn with the others.
const TIMED_SIGNS: usize = 1 << 20;
const ROUNDS: usize = 21;

/// Times all writers on all cases.
pub fn print_times() {
    let mut figures = vec![row("", WRITERS.iter().map(|writer| writer.name))];
    let mut ratios = vec![row("", WRITERS[1..].iter().map(|writer| writer.name))];
    for case in cases(&CYCLES) {
        let times = times(case);
        figures.push(row(&case.name(), times.iter().map(|list| rates(list))));
        let rest = times[1..].iter();
        ratios.push(row(&case.name(), rest.map(|list| ratio(list, &times[0]))));
    }
    println!("\npage, million signs a second: by the lowest of {ROUNDS} times, in brackets by the");
    println!("median");
    print(&figures);
    println!("\npage, how many times as fast the library is: by the lowest times, in brackets");
    println!("the median of the ratios within the rounds");
    print(&ratios);
}

/// The nanoseconds of each writer for each sign, in each round. All of them write to
/// one buffer, so that its place in memory is the same for all.
fn times(case: Case) -> Vec<Vec<f64>> {
    let bytes = Bytes::of(case);
    assert_agree(&bytes);
    let mut page = bytes.page(0);
    let calls = TIMED_SIGNS.div_ceil(case.signs());
    let mut times = vec![Vec::new(); WRITERS.len()];
    for _ in 0..ROUNDS {
        for (writer, times) in WRITERS.iter().zip(&mut times) {
            let start = Instant::now();
            for _ in 0..calls {
                let answer = bytes.write(*writer, &mut page);
                black_box((answer, &page));
            }
            let time = start.elapsed().as_secs_f64();
            times.push(time * 1e9 / (case.signs() * calls) as f64);
        }
    }
    times
}

/// Million signs a second by the nanoseconds of a sign: by the lowest, and in
/// brackets by the median.
fn rates(list: &[f64]) -> String {
    format!("{:.0} ({:.0})", 1e3 / lowest(list), 1e3 / median(list))
}
