//! The times of static runs with many cycles, beside those of plain runs.

use super::agree::assert_all_agree;
use super::counting::{cases, head};
use super::{PEERS, PLAIN};
use crate::aligned::{print, row};
use crate::cases::{Bytes, Case};
use crate::rounds::{low_and_median, ratio, rounds_of};

/// About how many nets a timed run works out, over all its cycles.
const TIMED_NETS: usize = 1 << 20;

/// How often each peer is timed on each case.
const ROUNDS: usize = 51;

/// Times the plain run and the peers on all cases.
pub fn print_times() {
    let mut figures = vec![head()];
    let mut ratios = vec![row("", PEERS[1..].iter().map(|peer| peer.name))];
    for (_, case) in cases() {
        let k = TIMED_NETS / case.nets;
        let (plain, times) = times(case, k);
        let name = format!("{}, {k} cycles", case.name());
        let first = [
            low_and_median(&times[0]),
            low_and_median(&plain),
            ratio(&times[0], &plain),
        ];
        let rest = || times.iter().skip(1);
        let cells = rest().map(|list| low_and_median(list));
        figures.push(row(&name, first.into_iter().chain(cells)));
        ratios.push(row(&name, rest().map(|list| ratio(list, &times[0]))));
    }
    println!(
        "\nstatic_run, ns a net and cycle: the lowest of {ROUNDS} rounds, in brackets the median;"
    );
    println!(
        "ratio is how many times as long as run it takes, by the lowest times, in brackets the"
    );
    println!("median of the ratios within the rounds");
    print(&figures);
    println!(
        "\nstatic_run, how many times as fast as the peers it is: by the lowest times, in brackets"
    );
    println!("the median of the ratios within the rounds");
    print(&ratios);
}

/// The times of the plain run and of the peers on a case with k cycles.
fn times(case: Case, k: usize) -> (Vec<f64>, Vec<Vec<f64>>) {
    let (plain, codes) = (Bytes::of(case, k), Bytes::codes_of(case, k));
    assert_all_agree(&plain, &codes, k);
    let mut runs: Vec<_> = PEERS.iter().map(|peer| (*peer, &codes)).collect();
    runs.push((PLAIN, &plain));
    let mut times = rounds_of(&runs, k, ROUNDS);
    let plain = times.pop().expect("the times of the plain run");
    (plain, times)
}
