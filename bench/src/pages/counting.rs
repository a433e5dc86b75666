//! The instructions and the mispredicted branches of pages for each sign.

use std::hint::black_box;

use super::cases::{cases, Bytes};
use super::{named, WRITERS};
use crate::aligned::{print, row};
use crate::count::{counted, valgrind_is_there};
use crate::counting::text;

/// The numbers of cycles of which pages are counted.
const CYCLES: [usize; 2] = [64, 130];

/// The two numbers of calls.
const FEW: usize = 1;
const MANY: usize = 3;

/// The mode `count pages`: the number of a case, the name of a writer, and how many
/// calls are made.
pub fn some_calls(case: usize, writer: &str, times: usize) {
    let case = cases(&CYCLES).nth(case).expect("the number of a case");
    let bytes = Bytes::of(case);
    let mut page = bytes.page(0);
    for _ in 0..times {
        let answer = bytes.write(named(writer), &mut page);
        assert_eq!(answer, 0, "the call was turned back");
        black_box(&page);
    }
}

/// Counts all writers.
pub fn print_counts() {
    println!("\npage, instructions / mispredicted branches for each sign");
    if !valgrind_is_there() {
        return;
    }
    let mut table = vec![row("", WRITERS.iter().map(|writer| writer.name))];
    for (number, case) in cases(&CYCLES).enumerate() {
        let of = |name: &str| {
            let arguments = ["count", "pages", &number.to_string(), name];
            text(counted(&arguments, FEW, MANY, case.signs()))
        };
        let counts = WRITERS.iter().map(|writer| of(writer.name));
        table.push(row(&case.name(), counts));
    }
    print(&table);
}
