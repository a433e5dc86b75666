//! Static runs with K = 1: what a call costs that makes its table for a single
//! cycle.

use std::time::Instant;

use super::agree::assert_all_agree;
use super::counting::ratio as count_ratio;
use super::{named, PEERS, PLAIN};
use crate::aligned::{print, row};
use crate::cases::{Bytes, Case};
use crate::count::{counted, valgrind_is_there};
use crate::mix::{Mix, MIXES};
use crate::once::{case, FEW, MANY};
use crate::peers;
use crate::repeated::{Calls, ROWS};
use crate::rounds::{lowest, median, ratio};

/// The numbers of nets.
const NETS: [usize; 2] = [100, 1100];

/// How often each call is timed, in turn with the other, and about how many nets are
/// worked out in the calls that are timed together.
const ROUNDS: usize = 201;
const TIMED_NETS: usize = 32768;

/// All cases.
fn cases() -> impl Iterator<Item = Case> {
    MIXES
        .into_iter()
        .flat_map(|mix| NETS.map(|nets| case(mix, nets)))
}

/// The head of both tables.
fn head() -> Vec<String> {
    row("", [PEERS[0].name, PLAIN.name, "more", "ratio"])
}

/// Times both calls.
pub fn print_times() {
    println!("\nstatic_run with K = 1, ns a call: the lowest of {ROUNDS} rounds, in brackets the");
    println!("median; more is what it takes beyond run, and ratio how many times as long");
    let mut table = vec![head()];
    for case in cases() {
        let [codes, plain] = times(case);
        let more = lowest(&codes) - lowest(&plain);
        let figure = |list: &[f64]| format!("{:.0} ({:.0})", lowest(list), median(list));
        let ratio = ratio(&codes, &plain);
        let cells = [figure(&codes), figure(&plain), format!("{more:.0}"), ratio];
        table.push(row(&case.name(), cells));
    }
    print(&table);
}

/// The nanoseconds of a call in each round, of the static and of the plain run.
fn times(case: Case) -> [Vec<f64>; 2] {
    let (plain, codes) = (Bytes::of(case, ROWS), Bytes::codes_of(case, ROWS));
    assert_all_agree(&plain, &codes, ROWS);
    let number = TIMED_NETS / case.nets;
    let mut calls = [(PEERS[0], &codes), (PLAIN, &plain)]
        .map(|(peer, bytes)| (Calls::new(peer, bytes), bytes, Vec::new()));
    for _ in 0..ROUNDS {
        for (calls, bytes, times) in &mut calls {
            let start = Instant::now();
            calls.make(bytes, number);
            let time = start.elapsed().as_secs_f64();
            times.push(time * 1e9 / number as f64);
        }
    }
    calls.map(|(_, _, times)| times)
}

/// The mode `count static_once`: a mix, a number of nets, the name of a peer, and how
/// many calls are made.
pub fn some_calls(mix: Mix, nets: usize, peer: &str, times: usize) {
    let bytes = Bytes::codes_of(case(mix, nets), ROWS);
    Calls::new(named(peer), &bytes).make(&bytes, times);
}

/// Counts the instructions of both calls.
pub fn print_counts() {
    println!("\nstatic_run with K = 1, instructions a call; more is what it takes beyond run, and");
    println!("ratio how many times as many");
    if !valgrind_is_there() {
        return;
    }
    let mut table = vec![head()];
    for case in cases() {
        let nets = case.nets.to_string();
        let of = |mode: &str, name: &str| {
            let arguments = ["count", mode, case.mix.name(), &nets, name];
            counted(&arguments, FEW, MANY, 1)
        };
        let codes = of("static_once", PEERS[0].name);
        let plain = of("once", peers::PEERS[0].name);
        let figure = |count: Option<f64>| match count {
            Some(count) => format!("{count:.0}"),
            None => "failed".to_string(),
        };
        let [above, below] = [codes, plain].map(|counts| counts.map(|counts| counts.instructions));
        let more = above.zip(below).map(|(above, below)| above - below);
        let cells = [figure(above), figure(below), figure(more)];
        let ratio = count_ratio(codes, plain);
        table.push(row(&case.name(), cells.into_iter().chain([ratio])));
    }
    print(&table);
}
