//! Before anything is timed, every peer of a static run has to give what the library
//! gives, refusals included.

use super::{PEERS, PLAIN};
use crate::agree::{assert_agree_with, assert_refusals_agree, small, SMALL};
use crate::call::CLEAR;
use crate::cases::Bytes;
use crate::peer::Peer;
use tracker::codes::{is_marked, value};

/// Bytes that are no codes.
const NO_CODES: [u8; 4] = [5, 7, 8, 255];

/// Compares the peers with the library on small netlists, with few cycles, and
/// with calls that are turned back.
pub fn assert_agree_on_small() {
    for seed in 0..SMALL {
        let (plain, k) = small(seed);
        let codes = small(seed).0.with_codes(k, seed as u64);
        assert_all_agree(&plain, &codes, k);
        assert_refusals_agree(PEERS, &NO_CODES, &codes, k, seed as u64);
    }
}

/// Compares the peers with the library, and its static run with the plain run on
/// bytes that fill the codes.
pub fn assert_all_agree(plain: &Bytes, codes: &Bytes, k: usize) {
    assert_agree_with(PEERS[0], codes, k, PEERS);
    let (answer, bytes) = ran(PLAIN, plain, k);
    let (static_answer, static_codes) = ran(PEERS[0], codes, k);
    let is_clear = |answer: u64| answer % 65536 == CLEAR;
    assert!(!is_clear(static_answer) || is_clear(answer), "verdict");
    // The plain state has a count at its end, which no code stands beside.
    for (code, byte) in static_codes.into_iter().zip(bytes) {
        assert!(value(code).map_or(true, |value| value == byte % 2));
        assert!(is_marked(code) || !is_marked(byte));
    }
}

/// The answer of k cycles, and the outputs with the state left behind them.
fn ran(peer: Peer, bytes: &Bytes, k: usize) -> (u64, Vec<u8>) {
    let mut state = bytes.start.clone();
    let mut outputs = bytes.outputs(k);
    let answer = bytes.run(peer, k, &mut state, &mut outputs);
    outputs.extend(state);
    (answer, outputs)
}
