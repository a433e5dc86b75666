//! Calls with K = 1 on one netlist, again and again.

use std::hint::black_box;

use crate::cases::Bytes;
use crate::peer::Peer;

/// The rows that the calls take in turn.
pub const ROWS: usize = 64;

/// A peer's calls on one netlist, each with the next row and the state that the
/// last one left.
pub struct Calls {
    peer: Peer,
    state: Vec<u8>,
    outputs: Vec<u8>,
    next: usize,
}

impl Calls {
    pub fn new(peer: Peer, bytes: &Bytes) -> Calls {
        Calls {
            peer,
            state: bytes.start.clone(),
            outputs: bytes.outputs(1),
            next: 0,
        }
    }

    /// Makes some more calls.
    pub fn make(&mut self, bytes: &Bytes, times: usize) {
        for _ in 0..times {
            let row = self.next % ROWS;
            let answer = bytes.run_from(self.peer, row, 1, &mut self.state, &mut self.outputs);
            black_box((answer, &self.state, &self.outputs));
            self.next += 1;
        }
    }

    /// The name of the peer.
    pub fn name(&self) -> &'static str {
        self.peer.name
    }

    /// The state that the last call left.
    pub fn state(&self) -> &[u8] {
        &self.state
    }
}
