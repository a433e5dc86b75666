//! The two lists on the netlist itself: answers, filled bytes and states.

use super::List;
use crate::bytes::first_disagreement;
use crate::call::Call;
use crate::case::Case;
use crate::coding::number_of;
use crate::counts::Counts;
use crate::failure::{Failure, Outcome};
use crate::name::Name;
use crate::replay::{same_as_run, steps};
use crate::states;

/// The cycles of longer runs are not made again by steps.
const MOST_STEPS: usize = 8;

/// Makes both calls: the same answer, and bytes and states that agree, with equal
/// counts. In an accepted run this holds for each of its cycles. The states go on in
/// the lists. The answer is whether the calls were accepted.
pub fn calls_agree(
    case: &mut Case,
    image: &[u8],
    counts: &Counts,
    calls: &[Call; 2],
    lists: &mut [List; 2],
) -> Result<bool, Box<Failure>> {
    let [mut one, mut other] = calls.clone();
    let answers = [case.ask(image, &mut one)?, case.ask(image, &mut other)?];
    if let Some(property) = disagreement(counts, &calls[0], [&one, &other], answers) {
        return Err(case.broken(image, &other, answers[1], property));
    }
    let accepted = number_of(answers[0]) == 0;
    if accepted && one.name == Name::Run && one.k <= MOST_STEPS {
        cycles_agree(case, image, counts, calls, [&one, &other], answers[0])?;
    }
    lists[0].state = one.state;
    lists[1].state = other.state;
    Ok(accepted)
}

/// A call has a good k, right lengths, good bytes and a right count.
fn is_good(counts: &Counts, call: &Call) -> bool {
    counts.fit(call) && states::is_counted(&call.state) && {
        let mut bytes = states::registers(&call.state).iter().chain(&call.rows);
        bytes.all(|byte| *byte < 4)
    }
}

/// What does not hold of two calls that were made, of which the first was lent what
/// `before` holds.
fn disagreement(
    counts: &Counts,
    before: &Call,
    [one, other]: [&Call; 2],
    answers: [u64; 2],
) -> Option<String> {
    let accepted = number_of(answers[0]) == 0;
    if answers[0] != answers[1] {
        return Some(format!("the first list's answer is {:#x}", answers[0]));
    }
    if accepted != is_good(counts, before) {
        let text = "a call with a good k, right lengths, good bytes and a right count is \
                    accepted, and no other";
        return Some(String::from(text));
    }
    if accepted {
        if let Some(index) = first_disagreement(&one.filled, &other.filled) {
            return Some(format!("the filled bytes agree, also at index {index}"));
        }
    }
    let index = states::first_disagreement(counts.registers, &one.state, &other.state)?;
    Some(format!("the states agree, also at index {index}"))
}

/// Makes the cycles of two accepted runs again by steps. They are those of the
/// runs; the two verdicts of each cycle are equal, and net and register bytes
/// agree.
fn cycles_agree(
    case: &mut Case,
    image: &[u8],
    counts: &Counts,
    before: &[Call; 2],
    after: [&Call; 2],
    answer: u64,
) -> Outcome {
    let mut both = Vec::new();
    for (start, end) in before.iter().zip(after) {
        let cycles = steps(case, image, counts, start.k, &start.state, &start.rows)?;
        same_as_run(case, image, counts, end, answer, &start.state, &cycles)?;
        both.push(cycles);
    }
    for (one, other) in both[0].iter().zip(&both[1]) {
        let agree = one.verdict == other.verdict
            && first_disagreement(&one.nets, &other.nets).is_none()
            && states::first_disagreement(counts.registers, &one.state, &other.state).is_none();
        if !agree {
            let property = "verdicts are equal and bytes agree in each cycle of two runs";
            return Err(case.broken(image, after[1], answer, property));
        }
    }
    Ok(())
}
