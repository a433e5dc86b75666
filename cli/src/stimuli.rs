//! Rows for the library: what a file gives for each input, together with what the policy says, as bytes.

use crate::args::RowsArgs;
use crate::design::Design;
use crate::failure::{fail, Outcome};
use crate::policy::{Bound, Policy};
use crate::rows::{self, Given, Rows, Value, Wanted};
use tracker::codes::{UNKNOWN_TRUSTED, UNKNOWN_UNTRUSTED};

/// What becomes of a value that is not known.
#[derive(Debug, Clone, Copy, PartialEq, Eq)]
pub enum Unknowns {
    /// It is refused.
    Refused,
    /// It is taken as this value.
    TakenAs(bool),
    /// It stays unknown, for a static run.
    Kept,
}

/// The rows of a run, one by one.
pub struct Stimuli {
    rows: Option<Box<dyn Rows>>,
    /// The length of the file, where it has one.
    pub length: Option<u64>,
    pub policy: Bound,
    inputs: Vec<String>,
    unknowns: Unknowns,
    limit: Option<u64>,
    /// The cycle that comes next.
    cycle: u64,
    given: Vec<Given>,
    /// Whether any input was marked so far.
    pub any_marked: bool,
}

/// What is given for an input that no file speaks of.
const NOTHING: Given = Given {
    value: Value::Absent,
    mark: false,
};

impl Stimuli {
    /// Opens the rows and reads the policy.
    pub fn open(args: &RowsArgs, design: &Design, unknowns: Unknowns) -> Outcome<Stimuli> {
        let (inputs, outputs) = (design.inputs(), design.output_names());
        let policy = match &args.policy {
            Some(file) => Policy::read(file)?.bind(&inputs, &outputs)?,
            None => Bound::none(inputs.len(), outputs.len()),
        };
        let wanted = Wanted {
            inputs: &inputs,
            clock: design.names.clock.as_ref(),
            scope: args.scope.as_deref(),
        };
        let opened = match &args.rows {
            Some(file) => Some(rows::open(file, args.format, &wanted)?),
            None => None,
        };
        if opened.is_none() && args.cycles.is_none() {
            fail!("there are no rows, and --cycles does not say how many cycles to take");
        }
        let (rows, length) = opened.map_or((None, None), |(rows, length)| (Some(rows), length));
        Ok(Stimuli {
            rows,
            length,
            policy,
            given: vec![NOTHING; inputs.len()],
            inputs,
            unknowns,
            limit: args.cycles,
            cycle: 0,
            any_marked: false,
        })
    }

    /// Whether anything can mark an input.
    pub fn can_mark(&self) -> bool {
        self.policy.any_foreign() || self.rows.as_ref().is_some_and(|rows| rows.has_marks())
    }

    /// How many bytes of the file were taken.
    pub fn position(&self) -> u64 {
        self.rows.as_ref().map_or(0, |rows| rows.position())
    }

    /// The cycle that comes next, which is the number of those that were taken.
    pub fn cycle(&self) -> u64 {
        self.cycle
    }

    /// Puts the bytes of the next row behind others. False where there is none.
    pub fn next_row(&mut self, bytes: &mut Vec<u8>) -> Outcome<bool> {
        if self.limit == Some(self.cycle) {
            return Ok(false);
        }
        if let Some(rows) = &mut self.rows {
            if !rows.next_row(&mut self.given)? {
                if let Some(limit) = self.limit {
                    fail!("there are rows for {} cycles, and --cycles asks for {limit}", self.cycle);
                }
                return Ok(false);
            }
        }
        for input in 0..self.inputs.len() {
            let byte = self.byte(input)?;
            self.any_marked |= tracker::codes::is_marked(byte);
            bytes.push(byte);
        }
        self.cycle += 1;
        Ok(true)
    }

    /// The byte of an input in this cycle.
    fn byte(&self, input: usize) -> Outcome<u8> {
        let Given { value, mark } = self.given[input];
        let mark = mark || self.policy.is_foreign(input, self.cycle);
        let value = match (value, self.unknowns) {
            (Value::Known(value), _) => Some(value),
            (Value::Unknown, Unknowns::TakenAs(value)) => Some(value),
            (Value::Unknown, Unknowns::Kept) => None,
            (Value::Unknown, Unknowns::Refused) => {
                let name = &self.inputs[input];
                fail!("input {name} is x or z in cycle {}; say --undefined 0 or 1 to take it as that", self.cycle);
            }
            (Value::Absent, unknowns) => self.value_by_policy(input, unknowns)?,
        };
        Ok(match value {
            Some(value) => u8::from(value) + 2 * u8::from(mark),
            None if mark => UNKNOWN_UNTRUSTED,
            None => UNKNOWN_TRUSTED,
        })
    }

    /// The value of an input that the rows say nothing of.
    fn value_by_policy(&self, input: usize, unknowns: Unknowns) -> Outcome<Option<bool>> {
        match (self.policy.value(input, self.cycle), unknowns) {
            (Some(value), _) => Ok(Some(value)),
            (None, Unknowns::Kept) => Ok(None),
            (None, _) => {
                let name = &self.inputs[input];
                fail!("neither the rows nor the policy give input {name} a value in cycle {}", self.cycle)
            }
        }
    }
}
