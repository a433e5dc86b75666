//! The static library's answers, each one number, as the types of this crate.
//!
//! The upper 32 bits of an answer are the number of a refusal, and the lower 32
//! its place. Where the upper are 0 the call did not turn back: the lower are 0
//! for done; for a step the code of its verdict; for a run the cycle × 65,536 +
//! the code of its verdict; for a figure of the doubled netlist the number of
//! nets. The code of a verdict is 65,535 for clear, and the flow's net for a
//! flow. It is never 0, since net 0 is no OUT.

use crate::{FirstFlow, Reason, Refusal, Verdict, MOST_CYCLES, MOST_NETS};

/// The answer of a call that is done or turns back.
pub(crate) fn done(answer: u64) -> Result<(), Refusal> {
    match accepted(answer)? {
        0 => Ok(()),
        _ => unknown(answer),
    }
}

/// The answer of a step.
pub(crate) fn step(answer: u64) -> Result<Verdict, Refusal> {
    let code = accepted(answer)?;
    Ok(verdict(code).unwrap_or_else(|| unknown(answer)))
}

/// The answer of a run.
pub(crate) fn run(answer: u64) -> Result<FirstFlow, Refusal> {
    let low = accepted(answer)?;
    let cycle = low / 65_536;
    match verdict(low % 65_536) {
        Some(verdict) if cycle <= MOST_CYCLES => Ok(FirstFlow { cycle, verdict }),
        _ => unknown(answer),
    }
}

/// The answer with the number of nets of the doubled netlist. It is at least 2,
/// since each net becomes two or more.
pub(crate) fn doubled_size(answer: u64) -> Result<usize, Refusal> {
    match accepted(answer)? {
        nets @ 2..=MOST_NETS => Ok(nets),
        _ => unknown(answer),
    }
}

/// The answer with the number of nets of one kind of the doubled netlist.
pub(crate) fn doubled_kind(answer: u64) -> Result<usize, Refusal> {
    match accepted(answer)? {
        nets @ 0..=MOST_NETS => Ok(nets),
        _ => unknown(answer),
    }
}

/// The lower 32 bits of an answer that is no refusal.
fn accepted(answer: u64) -> Result<usize, Refusal> {
    let number = (answer >> 32) as u32;
    let low = answer as u32 as usize;
    if number == 0 {
        return Ok(low);
    }
    match Reason::from_number(number) {
        Some(reason) => Err(Refusal { reason, place: low }),
        None => unknown(answer),
    }
}

/// The code of a clear verdict, which is no net's number.
const CLEAR: usize = 65_535;

/// The last net of the largest netlist.
const LAST_NET: usize = MOST_NETS - 1;

/// The verdict of a code, or none where it is neither clear nor a net that can
/// be an OUT.
fn verdict(code: usize) -> Option<Verdict> {
    match code {
        CLEAR => Some(Verdict::Clear),
        1..=LAST_NET => Some(Verdict::Flow { net: code }),
        _ => None,
    }
}

/// No answer of this release is this number.
fn unknown(answer: u64) -> ! {
    panic!(
        "the static library gave the answer {answer}, which this wrapper does not know: \
         they are not of one release"
    )
}

#[cfg(test)]
mod tests;
