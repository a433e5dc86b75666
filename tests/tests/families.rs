//! All families of cases, with the compiled library.

use std::mem::take;
use std::time::Instant;
use tests::{run_family, Bits, Counted, Exactness, Name, Paged, Tally, Unknowns};
use tests::{FAMILIES, LIBRARY};

/// Every refusal but 17 must be seen at least so often, and every one of each static
/// call and of the call that writes pages.
const LEAST_SEEN: u64 = 10;

/// The calls in which a family must have inverted pins of all kinds, and images
/// without any of all kinds, and how often.
#[rustfmt::skip]
const INVERTED: [(&str, &[Name], u64); 16] = [
    ("exhaustive", &[
        Name::Check, Name::PowerUp, Name::Step, Name::Run, Name::Double,
        Name::StaticPowerUp, Name::StaticRun, Name::Page,
    ], 100),
    ("four_nets", &[Name::Check, Name::Step, Name::Run, Name::Double], 1000),
    ("good", &[
        Name::Check, Name::PowerUp, Name::Step, Name::Run, Name::Double, Name::Page,
    ], 1000),
    ("large", &[
        Name::Check, Name::PowerUp, Name::Step, Name::Run, Name::Double, Name::Page,
    ], 50),
    ("lists", &[
        Name::Check, Name::PowerUp, Name::Step, Name::Run, Name::Double,
        Name::StaticPowerUp, Name::StaticRun, Name::Page,
    ], 100),
    ("doubling", &[Name::Check, Name::PowerUp, Name::Step, Name::Run, Name::Double], 1000),
    ("pairing", &[Name::PowerUp, Name::Step, Name::Run, Name::Double], 1000),
    ("two_runs", &[Name::PowerUp, Name::Step, Name::Run, Name::Double], 1000),
    ("steps", &[Name::Step, Name::Run], 1000),
    ("exact", &[Name::Step], 1000),
    ("page_texts", &[Name::Run, Name::Page], 1000),
    ("counting", &[Name::PowerUp, Name::Step, Name::Run], 1000),
    ("static_gates", &[Name::StaticRun], 1),
    ("static_runs", &[Name::StaticPowerUp, Name::StaticRun], 1000),
    ("filling", &[Name::StaticPowerUp, Name::StaticRun, Name::Run], 1000),
    ("known", &[Name::StaticPowerUp, Name::StaticRun], 1000),
];

/// The families in which the top bit must be refused on all operands that must not
/// have it, and accepted on pins of all kinds that are only just good, and how
/// often.
const REFUSED: [(&str, u64); 2] = [("operands", 1), ("damaged", 100)];

#[test]
fn all_families() {
    let mut tally = Tally::default();
    for family in &FAMILIES {
        let (before, start) = (tally.calls(), Instant::now());
        if let Err(failure) = run_family(&LIBRARY, family, family.cases, &mut tally) {
            panic!("\n{failure}\n");
        }
        let calls = tally.calls() - before;
        let time = start.elapsed();
        println!("{:<12}{calls:>9} calls {time:>8.1?}", family.name);
        let bits = take(&mut tally.bits);
        enough_inverted(family.name, &bits);
        enough_refused(family.name, &bits);
    }
    println!("{tally}");
    enough(&tally);
}

/// Asks that the cases went everywhere.
fn enough(tally: &Tally) {
    assert!(tally.compared >= 100_000);
    assert_eq!(tally.numbers[17], 0);
    for number in (1..=16).chain(18..=20) {
        assert!(tally.numbers[number] >= LEAST_SEEN, "refusal {number}");
    }
    for number in [4, 5, 6, 7, 11, 13] {
        for (class, seen) in tally.places[number].iter().enumerate() {
            assert!(*seen >= LEAST_SEEN, "refusal {number}, place class {class}");
        }
    }
    for (name, accepted) in tally.accepted.iter().enumerate() {
        assert!(*accepted >= 1000, "accepted calls, name {name}");
    }
    let clear = tally.accepted[2] + tally.accepted[3] - tally.flows;
    assert!(tally.flows >= 10_000);
    assert!(clear >= 10_000);
    enough_counted(&tally.counted);
    enough_unknowns(&tally.unknowns);
    enough_paged(&tally.paged);
    enough_exact(&tally.exactness);
}

/// Asks that the counts of states went everywhere: none, few and more than 255 marked
/// registers left by each call, wrong counts of all kinds, and those beside other faults.
fn enough_counted(counted: &Counted) {
    let left = counted.left.concat();
    assert!(left.iter().all(|seen| *seen >= 1000), "{left:?}");
    let refused = counted.wrong.iter().chain(&counted.order);
    assert!(refused
        .chain([&counted.in_static])
        .all(|seen| *seen >= 1000));
}

/// Asks that the static calls went everywhere: each of their refusals, 18 for the
/// state and for the rows at all places and for all bytes, all codes at all that they
/// leave, and both verdicts.
fn enough_unknowns(unknowns: &Unknowns) {
    let names = [Name::StaticPowerUp, Name::StaticRun];
    for (name, numbers) in names.into_iter().zip(unknowns.numbers) {
        for number in (1..=18).filter(|number| name.may_refuse(*number)) {
            let seen = numbers[number as usize];
            assert!(seen >= LEAST_SEEN, "{name:?}, refusal {number}");
        }
    }
    let (places, bad) = (unknowns.places.concat(), unknowns.bad.concat());
    assert!(places.into_iter().chain(bad).min() >= Some(LEAST_SEEN));
    for code in [0, 1, 2, 3, 4, 6] {
        let seen = unknowns.left.map(|counts| counts[code]);
        assert!(seen.into_iter().all(|seen| seen >= 10_000), "code {code}");
    }
    for code in [0, 1, 6] {
        assert!(unknowns.powered[code] >= 1000, "powered up as {code}");
    }
    assert!(unknowns.verdicts.iter().all(|seen| *seen >= 10_000));
}

/// Asks that the call that writes pages went everywhere: each of its refusals, every
/// noted number of cycles, netlists with and without outputs, all bytes, bad bytes at
/// all places and in records of all lengths, and buffers too short and too long.
fn enough_paged(paged: &Paged) {
    for number in (0..=19).filter(|number| *number == 0 || Name::Page.may_refuse(*number)) {
        let seen = paged.numbers[number as usize];
        assert!(seen >= 100, "pages, refusal {number}");
    }
    assert!(paged.cycles.iter().all(|seen| *seen >= 100));
    assert!(paged.outputs.iter().all(|seen| *seen >= 1000));
    assert!(paged.bytes.iter().all(|seen| *seen >= 100_000));
    let bad = paged.places.iter().chain(&paged.records);
    assert!(bad.chain([&paged.behind]).all(|seen| *seen >= 100));
    assert!(paged.lengths.concat().iter().all(|seen| *seen >= 100));
}

/// Asks that gates of all kinds and OUTs were tried that a marked INPUT or REG reaches:
/// along one way, marked and unmarked, and along two, marked though no other values
/// change them.
fn enough_exact(exactness: &Exactness) {
    let least = exactness.least();
    assert!(least.iter().all(|seen| *seen >= 500), "{least:?}");
}

/// Asks that the cases of a family had inverted pins where it must have them.
fn enough_inverted(family: &str, bits: &Bits) {
    for (_, names, least) in INVERTED.iter().filter(|(name, _, _)| *name == family) {
        for name in *names {
            let (inverted, plain) = (bits.least_inverted(*name), bits.least_plain(*name));
            println!(
                "  {name:?}: {inverted} with each pin inverted, {plain} of each kind with none"
            );
            assert!(
                inverted >= *least,
                "{family}, {name:?}: {inverted} inverted"
            );
            assert!(plain >= *least, "{family}, {name:?}: {plain} plain");
        }
    }
}

/// Asks that the families of faults had the bit on pins that are only just good and
/// on all operands on which it is refused.
fn enough_refused(family: &str, bits: &Bits) {
    for (_, least) in REFUSED.iter().filter(|(name, _)| *name == family) {
        let (highest, refused) = (bits.least_highest(), bits.least_refused());
        println!("  inverted, only just good {highest}, refused by 5 to 7 {refused:?}");
        assert!(highest >= *least, "{family}: {highest} only just good");
        assert!(
            refused.iter().all(|seen| seen >= least),
            "{family}: {refused:?}"
        );
    }
}
