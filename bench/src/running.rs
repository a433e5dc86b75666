//! The times of `run` with many cycles.

use crate::agree::assert_agree;
use crate::aligned::{print, row};
use crate::cases::{Bytes, CASES};
use crate::peer::Peer;
use crate::rounds::{low_and_median, ratio, rounds};

/// About how many nets a timed run works out, over all its cycles. A run takes a
/// few milliseconds, so that many of them are not interrupted by other work.
const TIMED_NETS: usize = 1 << 21;

/// How often each peer is timed on each case.
const ROUNDS: usize = 101;

/// Times the peers on all cases. The first of them is the library.
pub fn print_times(peers: &[Peer]) {
    let mut figures = vec![row("", peers.iter().map(|peer| peer.name))];
    let mut ratios = vec![row("", peers.iter().skip(1).map(|peer| peer.name))];
    for case in CASES {
        let k = TIMED_NETS / case.nets;
        let bytes = Bytes::of(case, k);
        assert_agree(&bytes, k, peers);
        let times = rounds(&bytes, k, peers, ROUNDS);
        let name = format!("{}, {k} cycles", case.name());
        figures.push(row(&name, times.iter().map(|list| low_and_median(list))));
        let rest = times.iter().skip(1);
        ratios.push(row(&name, rest.map(|list| ratio(list, &times[0]))));
    }
    println!("\nrun, ns a net and cycle: the lowest of {ROUNDS} rounds, in brackets the median");
    print(&figures);
    println!("\nrun, how many times as fast the library is: by the lowest times, in brackets");
    println!("the median of the ratios within the rounds");
    print(&ratios);
}
