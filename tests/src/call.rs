//! One call, with the bytes that it is lent beside the image.

use crate::name::Name;

/// A call. What its function does not take is empty or 0 and is not lent.
#[derive(Clone, Debug)]
pub struct Call {
    pub name: Name,
    pub k: usize,
    pub kind: usize,
    pub state: Vec<u8>,
    /// The rows, or the record of which pages are written.
    pub rows: Vec<u8>,
    /// The net bytes of a step, the outputs of a run, the doubled image, or the
    /// pages.
    pub filled: Vec<u8>,
}

impl Call {
    fn empty(name: Name) -> Call {
        Call {
            name,
            k: 0,
            kind: 0,
            state: Vec::new(),
            rows: Vec::new(),
            filled: Vec::new(),
        }
    }

    pub fn check() -> Call {
        Call::empty(Name::Check)
    }

    pub fn power_up(state: Vec<u8>) -> Call {
        Call {
            state,
            ..Call::empty(Name::PowerUp)
        }
    }

    pub fn step(state: Vec<u8>, row: Vec<u8>, nets: Vec<u8>) -> Call {
        Call {
            state,
            rows: row,
            filled: nets,
            ..Call::empty(Name::Step)
        }
    }

    pub fn run(k: usize, state: Vec<u8>, rows: Vec<u8>, outputs: Vec<u8>) -> Call {
        Call {
            k,
            state,
            rows,
            filled: outputs,
            ..Call::empty(Name::Run)
        }
    }

    pub fn static_power_up(state: Vec<u8>) -> Call {
        Call {
            name: Name::StaticPowerUp,
            ..Call::power_up(state)
        }
    }

    pub fn static_run(k: usize, state: Vec<u8>, rows: Vec<u8>, outputs: Vec<u8>) -> Call {
        Call {
            name: Name::StaticRun,
            ..Call::run(k, state, rows, outputs)
        }
    }

    pub fn doubled_size() -> Call {
        Call::empty(Name::DoubledSize)
    }

    pub fn doubled_kind(kind: usize) -> Call {
        Call {
            kind,
            ..Call::empty(Name::DoubledKind)
        }
    }

    pub fn double(buffer: Vec<u8>) -> Call {
        Call {
            filled: buffer,
            ..Call::empty(Name::Double)
        }
    }

    pub fn page(k: usize, record: Vec<u8>, page: Vec<u8>) -> Call {
        Call {
            k,
            rows: record,
            filled: page,
            ..Call::empty(Name::Page)
        }
    }

    /// The call in words: its function, k, the kind and the lengths of its
    /// buffers.
    pub fn in_words(&self, image: &[u8]) -> String {
        let mut words = vec![
            String::from(self.name.function()),
            format!("image of {} bytes", image.len()),
        ];
        if self.name.has_k() {
            words.push(format!("k {}", self.k));
        }
        if self.name == Name::DoubledKind {
            words.push(format!("kind {}", self.kind));
        }
        if self.name.has_state() {
            words.push(format!("state of {}", self.state.len()));
        }
        if self.name.has_rows() {
            words.push(format!("{} of {}", self.name.rows(), self.rows.len()));
        }
        if self.name.has_filled() {
            words.push(format!("{} of {}", self.name.filled(), self.filled.len()));
        }
        words.join(", ")
    }
}
