//! The instructions and the mispredicted branches of `run` for each net and cycle.

use std::hint::black_box;

use crate::aligned::{print, row};
use crate::cases::{Bytes, CASES};
use crate::count::{counted, valgrind_is_there, Counts};
use crate::libraries::takes;
use crate::peer::Peer;
use crate::peers::named;
use crate::rounds::NO_FIGURE;

/// The two numbers of cycles. Their difference leaves out the check of the image
/// and what a run does once.
const FEW: usize = 64;
const MANY: usize = 192;

/// The mode `count run`: the number of a case, the name of a peer, and the cycles.
pub fn one_run(case: usize, peer: &str, k: usize) {
    let peer = named(peer).expect("the name of a peer");
    let bytes = Bytes::of(CASES[case], MANY);
    let mut state = bytes.start.clone();
    let mut outputs = bytes.outputs(MANY);
    let answer = bytes.run(peer, k, &mut state, &mut outputs);
    assert!(answer >> 32 == 0, "the run was turned back");
    black_box((answer, &state, &outputs));
}

/// Counts the peers on all cases.
pub fn print_counts(peers: &[Peer]) {
    println!("\nrun, instructions / mispredicted branches for each net and cycle");
    if !valgrind_is_there() {
        return;
    }
    let mut table = vec![row("", peers.iter().map(|peer| peer.name))];
    for (number, case) in CASES.iter().enumerate() {
        let image = Bytes::of(*case, 0).image;
        let of = |peer: &Peer| {
            if !takes(peer.name, &image) {
                return NO_FIGURE.to_string();
            }
            let arguments = ["count", "run", &number.to_string(), peer.name];
            text(counted(&arguments, FEW, MANY, case.nets))
        };
        table.push(row(&case.name(), peers.iter().map(of)));
    }
    print(&table);
}

/// Both counts, in print.
pub fn text(counts: Option<Counts>) -> String {
    match counts {
        Some(counts) => format!("{:.1} / {:.2}", counts.instructions, counts.mispredicted),
        None => "failed".to_string(),
    }
}
