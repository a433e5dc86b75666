//! Large good netlists, often at the limit of 8,192 nets: all calls with right
//! lengths.

use super::good;
use crate::case::Case;
use crate::failure::Outcome;
use crate::netlists;

pub fn run(case: &mut Case) -> Outcome {
    let nets = netlists::large(&mut case.random);
    let k = case.random.between(0, 4);
    good::calls(case, &nets, k)
}
