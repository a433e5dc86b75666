//! `run` with K = 1: what a call costs that takes a single cycle.

use std::time::Instant;

use crate::agree::assert_agree;
use crate::aligned::{print, row};
use crate::cases::{Bytes, Case};
use crate::count::{counted, valgrind_is_there};
use crate::libraries::{left, takes};
use crate::mix::{Mix, MIXES};
use crate::peer::Peer;
use crate::peers::named;
use crate::repeated::{Calls, ROWS};
use crate::rounds::{low_and_median, ratio, NO_FIGURE};

/// The numbers of nets.
const NETS: [usize; 3] = [100, 1100, 8192];

/// How often each peer is timed, in turn with the others, and about how many nets
/// are worked out in the calls that are timed together.
const ROUNDS: usize = 301;
const TIMED_NETS: usize = 32768;

/// The two numbers of calls that are counted.
pub const FEW: usize = 8;
pub const MANY: usize = 40;

/// The netlist of a mix and a number of nets.
pub fn case(mix: Mix, nets: usize) -> Case {
    Case {
        mix,
        nets,
        protect: true,
    }
}

/// All cases.
fn cases() -> impl Iterator<Item = Case> {
    MIXES
        .into_iter()
        .flat_map(|mix| NETS.map(|nets| case(mix, nets)))
}

/// Times the calls of all peers.
pub fn print_times(peers: &[Peer]) {
    let mut figures = vec![row("", peers.iter().map(|peer| peer.name))];
    let mut ratios = vec![row("", peers.iter().skip(1).map(|peer| peer.name))];
    for case in cases() {
        let times = times(case, peers);
        figures.push(row(
            &case.name(),
            times.iter().map(|list| low_and_median(list)),
        ));
        let rest = times.iter().skip(1);
        ratios.push(row(&case.name(), rest.map(|list| ratio(&times[0], list))));
    }
    println!("\nrun with K = 1, ns a net: the lowest of {ROUNDS} rounds, in brackets the median");
    print(&figures);
    println!("\nrun with K = 1, how many times as long the library takes: by the lowest times,");
    println!("in brackets the median of the ratios within the rounds");
    print(&ratios);
}

/// The nanoseconds of a call for each net, for each peer and round. Of a peer that
/// does not take the image there are none.
fn times(case: Case, peers: &[Peer]) -> Vec<Vec<f64>> {
    let bytes = Bytes::of(case, ROWS);
    assert_agree(&bytes, 1, peers);
    let number = TIMED_NETS / case.nets;
    let mut times = vec![Vec::new(); peers.len()];
    let timed = peers.iter().zip(&mut times);
    let timed = timed.filter(|(peer, _)| takes(peer.name, &bytes.image));
    let mut timed: Vec<_> = timed
        .map(|(peer, times)| (Calls::new(*peer, &bytes), times))
        .collect();
    for _ in 0..ROUNDS {
        for (calls, times) in &mut timed {
            let start = Instant::now();
            calls.make(&bytes, number);
            let time = start.elapsed().as_secs_f64();
            times.push(time * 1e9 / (case.nets * number) as f64);
        }
    }
    let first = timed[0].0.state();
    for (calls, _) in &timed {
        let registers = bytes.sizes.registers;
        let states = [calls.state(), first].map(|state| left(calls.name(), registers, state));
        assert!(states[0] == states[1], "state of {}", calls.name());
    }
    times
}

/// The mode `count once`: a mix, a number of nets, the name of a peer, and how many
/// calls are made.
pub fn some_calls(mix: Mix, nets: usize, peer: &str, times: usize) {
    let bytes = Bytes::of(case(mix, nets), ROWS);
    let peer = named(peer).expect("the name of a peer");
    Calls::new(peer, &bytes).make(&bytes, times);
}

/// Counts the instructions of the calls of all peers.
pub fn print_counts(peers: &[Peer]) {
    println!("\nrun with K = 1, instructions a net");
    if !valgrind_is_there() {
        return;
    }
    let mut table = vec![row("", peers.iter().map(|peer| peer.name))];
    for case in cases() {
        let of = |peer: &Peer| {
            let nets = case.nets.to_string();
            let arguments = ["count", "once", case.mix.name(), &nets, peer.name];
            if !takes(peer.name, &Bytes::of(case, 0).image) {
                return NO_FIGURE.to_string();
            }
            match counted(&arguments, FEW, MANY, case.nets) {
                Some(counts) => format!("{:.1}", counts.instructions),
                None => "failed".to_string(),
            }
        };
        table.push(row(&case.name(), peers.iter().map(of)));
    }
    print(&table);
}
