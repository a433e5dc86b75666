//! Good images with wrong buffers: lengths, bad bytes, counts and k, one fault or
//! several at once.

use crate::call::Call;
use crate::case::Case;
use crate::codes;
use crate::counts::Counts;
use crate::cycles::few;
use crate::drawing;
use crate::failure::Outcome;
use crate::name::Name;
use crate::netlists;
use crate::pages;
use crate::states;
use tracker::encode;

/// The calls of one case in five, which are static, and those of the others.
const STATIC: &[Name] = &[Name::StaticPowerUp, Name::StaticRun];
const OTHERS: &[Name] = &[
    Name::PowerUp,
    Name::Step,
    Name::Run,
    Name::Double,
    Name::Page,
];

pub fn run(case: &mut Case) -> Outcome {
    let nets = netlists::mostly_small(&mut case.random, 150);
    let counts = Counts::of(&nets);
    let image = encode(&nets);
    let names = if case.seed % 5 == 4 { STATIC } else { OTHERS };
    for name in names {
        let mut call = right_call(case, &counts, *name);
        for _ in 0..case.random.pick(&[1, 1, 1, 2, 2, 3]) {
            drawing::put_fault(&mut case.random, &counts, &mut call, true);
        }
        case.compare(&image, &mut call)?;
    }
    Ok(())
}

/// A call with right lengths on any state.
fn right_call(case: &mut Case, counts: &Counts, name: Name) -> Call {
    let random = &mut case.random;
    let state = states::draw(random, counts.registers);
    match name {
        Name::Check => Call::check(),
        Name::PowerUp => Call::power_up(random.bytes(states::length(counts.registers))),
        Name::Step => drawing::step(random, counts, &state),
        Name::Run => {
            let k = few(random);
            drawing::run(random, counts, k, &state)
        }
        Name::DoubledSize => Call::doubled_size(),
        Name::DoubledKind => Call::doubled_kind(random.below(10)),
        Name::Double => drawing::double(random, counts),
        Name::StaticPowerUp => Call::static_power_up(random.bytes(counts.registers)),
        Name::StaticRun => {
            let state = codes::draw(random, counts.registers);
            let k = few(random);
            drawing::static_run(random, counts, k, &state)
        }
        Name::Page => pages::any(random, counts),
    }
}
