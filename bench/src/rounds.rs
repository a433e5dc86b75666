//! Alternating rounds: each round times every peer once, in turn, so that what
//! else the machine does meets all of them alike.

use std::hint::black_box;
use std::time::Instant;

use crate::cases::Bytes;
use crate::libraries::takes;
use crate::peer::Peer;

/// The nanoseconds of each peer for each net and cycle, in each round:
/// `times[peer][round]`. Of a peer that does not take the image there are none.
pub fn rounds(bytes: &Bytes, k: usize, peers: &[Peer], rounds: usize) -> Vec<Vec<f64>> {
    let runs: Vec<_> = peers.iter().map(|peer| (*peer, bytes)).collect();
    rounds_of(&runs, k, rounds)
}

/// The same of runs that have each a peer and bytes of its own.
pub fn rounds_of(runs: &[(Peer, &Bytes)], k: usize, rounds: usize) -> Vec<Vec<f64>> {
    let mut times = vec![Vec::new(); runs.len()];
    let timed = runs.iter().zip(&mut times);
    let timed = timed.filter(|((peer, bytes), _)| takes(peer.name, &bytes.image));
    let mut timed: Vec<_> = timed
        .map(|((peer, bytes), times)| (peer, bytes, bytes.outputs(k), times))
        .collect();
    for _ in 0..rounds {
        for (peer, bytes, outputs, times) in &mut timed {
            let mut state = bytes.start.clone();
            let start = Instant::now();
            let answer = bytes.run(**peer, k, &mut state, outputs);
            let time = start.elapsed().as_secs_f64();
            black_box((answer, &state, &outputs));
            times.push(time * 1e9 / (bytes.sizes.nets * k) as f64);
        }
    }
    times
}

/// The median of a list that is not empty.
pub fn median(list: &[f64]) -> f64 {
    let mut sorted = list.to_vec();
    sorted.sort_by(f64::total_cmp);
    let middle = sorted.len() / 2;
    match sorted.len() % 2 {
        1 => sorted[middle],
        _ => (sorted[middle - 1] + sorted[middle]) / 2.0,
    }
}

/// The lowest of a list.
pub fn lowest(list: &[f64]) -> f64 {
    list.iter().copied().fold(f64::INFINITY, f64::min)
}

/// The median of the ratios above / below, round by round.
fn median_ratio(above: &[f64], below: &[f64]) -> f64 {
    let ratios: Vec<f64> = above.iter().zip(below).map(|(a, b)| a / b).collect();
    median(&ratios)
}

/// What is printed where there is no figure.
pub const NO_FIGURE: &str = "-";

/// The lowest of a list, and in brackets the median.
pub fn low_and_median(list: &[f64]) -> String {
    if list.is_empty() {
        return NO_FIGURE.to_string();
    }
    format!("{:.2} ({:.2})", lowest(list), median(list))
}

/// The ratio of the lowest times above / below, and in brackets the median of the
/// ratios within the rounds.
pub fn ratio(above: &[f64], below: &[f64]) -> String {
    if above.is_empty() || below.is_empty() {
        return NO_FIGURE.to_string();
    }
    let low = lowest(above) / lowest(below);
    format!("{low:.2} ({:.2})", median_ratio(above, below))
}
