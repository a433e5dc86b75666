//! One case alone, with every call that it makes printed.

use std::env;
use tests::{named, run_case, Family, Tally, FAMILIES, LIBRARY};

/// The family and the seed of a case such as `damaged:123456`.
fn parse(wanted: &str) -> Option<(&'static Family, u64)> {
    let (name, seed) = wanted.split_once(':')?;
    Some((named(name)?, seed.parse().ok()?))
}

/// Runs the case that TRACKER_CASE names. Without the variable there is nothing
/// to do. A case of a program is run by the test of the same name in `listing` or
/// `pages`.
#[test]
fn one_case() {
    let wanted = env::var("TRACKER_CASE").unwrap_or_default();
    let of_program = ["listing:", "pages:"]
        .iter()
        .any(|name| wanted.starts_with(name));
    if wanted.is_empty() || of_program {
        return;
    }
    let (family, seed) = parse(&wanted).unwrap_or_else(|| {
        let known: Vec<&str> = FAMILIES.iter().map(|family| family.name).collect();
        panic!("TRACKER_CASE is family:seed, with listing, pages or one of {known:?}")
    });
    println!("the case {}:{seed}", family.name);
    if let Err(failure) = run_case(&LIBRARY, family, seed, &mut Tally::default(), true) {
        panic!("\n{failure}\n");
    }
    println!("the case has passed");
}
