//! Counts of what the static calls were asked and what they left.

use std::fmt;

use crate::call::Call;
use crate::coding::{number_of, place_of, CLEAR};
use crate::name::Name;
use crate::places::class;
use tracker::codes::is_code;

/// Counts of static calls that went well.
#[derive(Default)]
pub struct Unknowns {
    /// Static power-ups and static runs by the number of their refusal; index 0
    /// counts the accepted ones.
    pub numbers: [[u64; 19]; 2],
    /// Refusals 18 for a state and for rows, by their place: first, last, between.
    pub places: [[u64; 3]; 2],
    /// Refusals 18 for a state and for rows, by the bad byte: 5, 7, 255, others.
    pub bad: [[u64; 4]; 2],
    /// The codes in states that static power-ups left.
    pub powered: [u64; 7],
    /// The codes in outputs and states that static runs left.
    pub left: [[u64; 7]; 2],
    /// Accepted static runs whose rows have an unknown bit: those that are clear,
    /// and those with a flow.
    pub verdicts: [u64; 2],
}

impl Unknowns {
    /// Counts a static call by its answer, and by the bytes that it left.
    pub fn note(&mut self, call: &Call, answer: u64) {
        let number = number_of(answer) as usize;
        match call.name {
            Name::StaticPowerUp => {
                self.numbers[0][number] += 1;
                if number == 0 {
                    count(&mut self.powered, &call.state);
                }
            }
            Name::StaticRun => {
                self.numbers[1][number] += 1;
                match number {
                    0 => self.note_run(call, answer),
                    18 => self.note_bad(call, place_of(answer)),
                    _ => {}
                }
            }
            _ => {}
        }
    }

    fn note_run(&mut self, call: &Call, answer: u64) {
        count(&mut self.left[0], &call.filled);
        count(&mut self.left[1], &call.state);
        if call.rows.iter().any(|code| *code > 3) {
            self.verdicts[usize::from(answer % 65_536 != CLEAR)] += 1;
        }
    }

    /// Counts a refusal 18. It is for the state, unless all bytes of that are codes.
    fn note_bad(&mut self, call: &Call, place: usize) {
        let in_state = call.state.iter().any(|byte| !is_code(*byte));
        let (index, bytes) = if in_state {
            (0, &call.state)
        } else {
            (1, &call.rows)
        };
        self.places[index][class(place, bytes.len())] += 1;
        let byte = match bytes.get(place) {
            Some(5) => 0,
            Some(7) => 1,
            Some(255) => 2,
            _ => 3,
        };
        self.bad[index][byte] += 1;
    }
}

impl fmt::Display for Unknowns {
    fn fmt(&self, f: &mut fmt::Formatter) -> fmt::Result {
        for (name, index) in [("state", 0), ("rows", 1)] {
            let [first, last, between] = self.places[index];
            let [five, seven, top, other] = self.bad[index];
            writeln!(
                f,
                "refusal 18 in the {name}: first {first}, last {last}, between {between}; \
                 5 {five}, 7 {seven}, 255 {top}, others {other}"
            )?;
        }
        let [outputs, states] = &self.left;
        writeln!(f, "codes in outputs {outputs:?}, in states {states:?}")?;
        let [clear, flows] = self.verdicts;
        write!(
            f,
            "static runs on unknown rows: clear {clear}, with a flow {flows}"
        )
    }
}

/// Counts codes. A broken library may leave other bytes, which are not counted.
fn count(counts: &mut [u64; 7], codes: &[u8]) {
    for code in codes {
        if let Some(count) = counts.get_mut(usize::from(*code)) {
            *count += 1;
        }
    }
}
