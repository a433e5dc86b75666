//! The cases that are measured.

use crate::accepted::accepted;
use crate::call::Call;
use crate::generate::{image, row_codes, rows};
use crate::mix::Mix;
use crate::peer::Peer;
use tracker::{ffi, state_length, Sizes};

/// The seeds of the netlists and of the rows.
const NETLIST_SEED: u64 = 1;
const ROW_SEED: u64 = 2;

/// A case: its netlist, by mix and number of nets, and whether OUTs are protected.
#[derive(Clone, Copy)]
pub struct Case {
    pub mix: Mix,
    pub nets: usize,
    pub protect: bool,
}

const fn case(mix: Mix, nets: usize, protect: bool) -> Case {
    Case { mix, nets, protect }
}

/// All cases.
pub const CASES: [Case; 15] = [
    case(Mix::Equal, 8192, true),
    case(Mix::Gates, 8192, true),
    case(Mix::Live, 8192, true),
    case(Mix::Real, 8192, true),
    case(Mix::Inverted, 8192, true),
    case(Mix::Equal, 1100, true),
    case(Mix::Gates, 1100, true),
    case(Mix::Live, 1100, true),
    case(Mix::Real, 1100, true),
    case(Mix::Inverted, 1100, true),
    case(Mix::Equal, 8192, false),
    case(Mix::Gates, 8192, false),
    case(Mix::Live, 8192, false),
    case(Mix::Real, 8192, false),
    case(Mix::Inverted, 8192, false),
];

impl Case {
    /// What the case is called in print.
    pub fn name(self) -> String {
        let clear = match self.protect {
            true => "",
            false => ", no OUT protected",
        };
        format!("{} {}{clear}", self.mix.name(), self.nets)
    }
}

/// A case with its bytes: the image, the state at power-up, and rows; or, for a
/// static run, the state at static power-up, which has no count, and rows of codes.
pub struct Bytes {
    pub image: Vec<u8>,
    pub sizes: Sizes,
    pub start: Vec<u8>,
    pub rows: Vec<u8>,
}

impl Bytes {
    /// The bytes of a case with rows for k cycles.
    pub fn of(case: Case, k: usize) -> Bytes {
        let image = image(case.mix, case.nets, NETLIST_SEED, case.protect);
        Bytes::with_image(image, k, ROW_SEED)
    }

    /// An image with rows for k cycles.
    pub fn with_image(image: Vec<u8>, k: usize, seed: u64) -> Bytes {
        let sizes = accepted(&image).sizes();
        let mut start = vec![0; state_length(sizes.registers)];
        assert_eq!(ffi::power_up(&image, &mut start), 0);
        Bytes {
            rows: rows(k * sizes.inputs, seed),
            image,
            sizes,
            start,
        }
    }

    /// The codes of a case with rows for k cycles of a static run.
    pub fn codes_of(case: Case, k: usize) -> Bytes {
        Bytes::of(case, 0).with_codes(k, ROW_SEED)
    }

    /// The same image with rows of codes for k cycles of a static run.
    pub fn with_codes(self, k: usize, seed: u64) -> Bytes {
        let mut start = vec![0; self.sizes.registers];
        assert_eq!(ffi::static_power_up(&self.image, &mut start), 0);
        Bytes {
            rows: row_codes(k * self.sizes.inputs, seed),
            start,
            ..self
        }
    }

    /// Room for the outputs of k cycles.
    pub fn outputs(&self, k: usize) -> Vec<u8> {
        vec![0; k * self.sizes.outputs]
    }

    /// A run of the first k rows. The state and the outputs are the caller's.
    pub fn run(&self, peer: Peer, k: usize, state: &mut [u8], outputs: &mut [u8]) -> u64 {
        self.run_from(peer, 0, k, state, outputs)
    }

    /// A run of k rows from a row on.
    pub fn run_from(
        &self,
        peer: Peer,
        row: usize,
        k: usize,
        state: &mut [u8],
        outputs: &mut [u8],
    ) -> u64 {
        let inputs = self.sizes.inputs;
        (peer.run)(Call {
            image: &self.image,
            k,
            state,
            rows: &self.rows[row * inputs..][..k * inputs],
            outputs: &mut outputs[..k * self.sizes.outputs],
        })
    }
}
