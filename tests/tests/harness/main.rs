//! The harness itself: it must notice each of a number of broken libraries, and
//! its report must name the case.

mod altered;
mod answers;
mod by_rule;
mod count_refusals;
mod count_table;
mod counts;
mod cycles;
mod doubled_bits;
mod doubling;
mod figures;
mod lent_bytes;
mod order;
mod page_refusals;
mod page_table;
mod page_texts;
mod parts;
mod rules;
mod static_calls;
mod static_rules;
mod table;
mod waking;

use count_table::COUNT_STAND_INS;
use page_table::PAGE_STAND_INS;
use table::{StandIn, STAND_INS};
use tests::{named, run_case, run_family, Failure, Family, Tally, FAMILIES, LIBRARY};

/// A family that has to catch a stand-in has so many cases for it.
const MOST_CASES: u64 = 5000;

/// Other families are tried with so many cases, to see whether they catch it, and
/// those whose cases take long with fewer.
const FEW_CASES: u64 = 100;
const FEWER_CASES: u64 = 5;

/// All stand-ins.
fn stand_ins() -> impl Iterator<Item = &'static StandIn> {
    STAND_INS
        .iter()
        .chain(&PAGE_STAND_INS)
        .chain(&COUNT_STAND_INS)
}

/// Runs the first cases of a family with a stand-in.
fn tried(stand_in: &StandIn, family: &Family, cases: u64) -> Option<Box<Failure>> {
    let mut tally = Tally::default();
    run_family(&stand_in.calls, family, cases.min(family.cases), &mut tally).err()
}

/// Asks that a report names its family and a seed, that this case alone fails
/// in the same way again, and that it does not fail with the library itself.
fn can_be_run_again(stand_in: &StandIn, family: &Family, failure: &Failure) {
    assert_eq!(failure.family, family.name);
    let text = failure.to_string();
    let name = format!("family {}, seed {}", family.name, failure.seed);
    let variable = format!("TRACKER_CASE={}:{} ", family.name, failure.seed);
    assert!(text.contains(&name) && text.contains(&variable), "{text}");
    let tally = &mut Tally::default();
    let again = run_case(&stand_in.calls, family, failure.seed, tally, false);
    assert_eq!(again.unwrap_err().as_ref(), failure);
    let good = run_case(&LIBRARY, family, failure.seed, tally, false);
    assert_eq!(good, Ok(()));
}

#[test]
fn every_stand_in_is_caught() {
    for stand_in in stand_ins() {
        for name in stand_in.caught_by {
            let family = named(name).expect("a family of this name");
            let failure = tried(stand_in, family, MOST_CASES);
            let failure =
                failure.unwrap_or_else(|| panic!("{}: {name} has to catch it", stand_in.name));
            assert!((stand_in.shows)(&failure), "{}:\n{failure}", stand_in.name);
            can_be_run_again(stand_in, family, &failure);
        }
    }
}

/// Prints which family catches which stand-in, with the seed of the first case
/// that does. Families that do not have to catch it are tried shortly.
#[test]
fn which_family_catches_which() {
    for stand_in in stand_ins() {
        let mut caught = Vec::new();
        for family in &FAMILIES {
            let has_to = stand_in.caught_by.contains(&family.name);
            let cases = match family.name {
                _ if has_to => MOST_CASES,
                "four_nets" | "operands" | "large" | "doubling" | "static_gates" => FEWER_CASES,
                "extreme" => 0,
                _ => FEW_CASES,
            };
            if let Some(failure) = tried(stand_in, family, cases) {
                caught.push(format!("{}:{}", family.name, failure.seed));
            }
        }
        println!("{}: {}", stand_in.name, caught.join(", "));
        assert!(!caught.is_empty());
    }
}

/// The whole text of one report.
#[test]
fn a_report_says_what_is_needed() {
    let stand_in = STAND_INS
        .iter()
        .find(|stand_in| stand_in.name == "writes before the state");
    let family = named("exhaustive").unwrap();
    let failure = tried(stand_in.unwrap(), family, 1).unwrap();
    let byte = failure.byte.unwrap();
    let (is, expected) = (byte.is, byte.expected);
    assert_eq!(is, expected ^ 1);
    let text = format!(
        "family exhaustive, seed 0\n\
         call 2 of the case: tracker_power_up, image of 15 bytes, state of 2\n\
         the library answers 0x0: done\n\
         the reference says  0x0: done\n\
         first differing byte: guard byte 1 before the state was written: it is {is}, expected {expected}\n\
         run it again: TRACKER_CASE=exhaustive:0 cargo test --offline -p tests one_case -- --nocapture"
    );
    assert_eq!(failure.to_string(), text);
}
