//! The instructions and the mispredicted branches of a static run for each net and
//! cycle, beside those of a plain run.

use std::hint::black_box;

use super::{named, PEERS, PLAIN};
use crate::aligned::{print, row};
use crate::cases::{Bytes, Case, CASES};
use crate::count::{counted, valgrind_is_there, Counts};
use crate::counting::text;
use crate::peers;

/// The two numbers of cycles. Their difference leaves out the check of the image
/// and what a run does once, the table of a static run among it.
const FEW: usize = 32;
const MANY: usize = 96;

/// The cases with their numbers: those with protected OUTs.
pub fn cases() -> impl Iterator<Item = (usize, Case)> {
    let cases = CASES.into_iter().enumerate();
    cases.filter(|(_, case)| case.protect)
}

/// The mode `count static`: the number of a case, the name of a peer, and the cycles.
pub fn one_run(case: usize, peer: &str, k: usize) {
    let bytes = Bytes::codes_of(CASES[case], MANY);
    let mut state = bytes.start.clone();
    let mut outputs = bytes.outputs(MANY);
    let answer = bytes.run(named(peer), k, &mut state, &mut outputs);
    assert!(answer >> 32 == 0, "the static run was turned back");
    black_box((answer, &state, &outputs));
}

/// The head of a table: the static run, the plain run, their ratio, and the peers.
pub fn head() -> Vec<String> {
    let peers = PEERS[1..].iter().map(|peer| peer.name);
    let first = [PEERS[0].name, PLAIN.name, "ratio"];
    row("", first.into_iter().chain(peers))
}

/// Counts the plain run and the peers on all cases.
pub fn print_counts() {
    println!("\nstatic_run, instructions / mispredicted branches for each net and cycle; ratio is");
    println!("how many times as many instructions as run it takes");
    if !valgrind_is_there() {
        return;
    }
    let mut table = vec![head()];
    for (number, case) in cases() {
        let number = number.to_string();
        let of = |mode: &str, name: &str| {
            let arguments = ["count", mode, &number, name];
            counted(&arguments, FEW, MANY, case.nets)
        };
        let plain = of("run", peers::PEERS[0].name);
        let mut counts = PEERS.iter().map(|peer| of("static", peer.name));
        let first = counts.next().flatten();
        let cells = [text(first), text(plain), ratio(first, plain)];
        table.push(row(&case.name(), cells.into_iter().chain(counts.map(text))));
    }
    print(&table);
}

/// The ratio of two counts of instructions, in print.
pub fn ratio(above: Option<Counts>, below: Option<Counts>) -> String {
    match (above, below) {
        (Some(above), Some(below)) => format!("{:.2}", above.instructions / below.instructions),
        _ => "failed".to_string(),
    }
}
