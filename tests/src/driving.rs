//! Running families and single cases.

use std::env;
use std::io::{stderr, Write};
use std::thread::panicking;

use crate::calls::Calls;
use crate::case::Case;
use crate::failure::Outcome;
use crate::families::Family;
use crate::tally::Tally;

/// Names the case on the standard error stream if the harness itself panics in
/// it.
struct Naming {
    family: &'static str,
    seed: u64,
}

impl Drop for Naming {
    fn drop(&mut self) {
        if panicking() {
            eprintln!("in the case {}:{}", self.family, self.seed);
        }
    }
}

/// Runs one case. With `print` it shows each of its calls.
pub fn run_case(
    calls: &Calls,
    family: &Family,
    seed: u64,
    tally: &mut Tally,
    print: bool,
) -> Outcome {
    let _naming = Naming {
        family: family.name,
        seed,
    };
    let mut case = Case::new(family.name, seed, calls, tally, print);
    (family.run)(&mut case)
}

/// Runs the first `cases` cases of a family, up to the first that fails.
///
/// Where TRACKER_TRACE is set, each case is named before it starts, so that the
/// last name is that of a case in which the library crashed or did not return.
pub fn run_family(calls: &Calls, family: &Family, cases: u64, tally: &mut Tally) -> Outcome {
    let trace = env::var_os("TRACKER_TRACE").is_some();
    for seed in 0..cases {
        if trace {
            let _ = writeln!(stderr(), "{}:{seed}", family.name);
        }
        run_case(calls, family, seed, tally, false)?;
    }
    Ok(())
}
