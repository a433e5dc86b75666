//! Answers as the library's interface codes them in one number.

use crate::name::Name;
use reference::{FirstFlow, Refusal, Verdict};

/// A refusal: its number times 2^32, and its place.
pub fn refusal(refusal: Refusal) -> u64 {
    assert!((refusal.place as u64) < 1 << 32);
    (u64::from(refusal.number) << 32) + refusal.place as u64
}

/// The number of a clear verdict.
pub const CLEAR: u64 = 65_535;

/// A verdict: 65,535 for clear, or the flow's net.
pub fn verdict(verdict: Verdict) -> u64 {
    match verdict {
        Verdict::Clear => CLEAR,
        Verdict::Flow(net) => net as u64,
    }
}

/// The first flow of a run: the cycle times 65,536, and the verdict.
pub fn first_flow(first: FirstFlow) -> u64 {
    first.cycle as u64 * 65_536 + verdict(first.verdict)
}

/// The number of the refusal in an answer, or 0.
pub fn number_of(answer: u64) -> u64 {
    answer >> 32
}

/// The place of the refusal in an answer.
pub fn place_of(answer: u64) -> usize {
    (answer % (1 << 32)) as usize
}

/// An answer in words.
pub fn in_words(name: Name, answer: u64) -> String {
    if number_of(answer) != 0 {
        return format!("refusal {}, place {}", number_of(answer), place_of(answer));
    }
    let verdict = match answer % 65_536 {
        CLEAR => String::from("clear"),
        net => format!("flow {net}"),
    };
    match name {
        Name::Step if answer < 65_536 => verdict,
        Name::Run | Name::StaticRun => format!("cycle {}, {verdict}", answer / 65_536),
        Name::DoubledSize | Name::DoubledKind => format!("{answer} nets"),
        _ if answer == 0 => String::from("done"),
        _ => format!("{answer}, which is no answer of this call"),
    }
}
