//! The pages program against the reference's pages.

mod failing;
mod long;
mod planned;
mod stored;
mod waiting;

use std::io::Cursor;

use tests::programs::{self, Program};

const PROGRAM: Program = Program {
    name: "pages",
    variable: "TRACKER_PAGES",
    folders: env!("CARGO_TARGET_TMPDIR"),
    reference: pages,
};

/// The pages that the reference prints.
fn pages(image: &[u8], rows: &[u8]) -> Vec<u8> {
    let mut pages = Vec::new();
    reference::pages(image, Cursor::new(rows), &mut pages).expect("writing to memory");
    pages
}

/// A line of a page: columns 1 to 5, a blank, and what stands behind it, filled with
/// blanks to 70 columns.
fn line(label: &str, rest: &str) -> String {
    let line = [label, " ", rest, &" ".repeat(64 - rest.len())].concat();
    assert_eq!(line.len(), 70);
    line
}

#[test]
fn a_closed_pipe_ends_the_program() {
    programs::a_closed_pipe_ends_it(&PROGRAM);
}

#[test]
#[cfg(target_os = "linux")]
fn a_full_device_ends_the_program() {
    programs::a_full_device_ends_it(&PROGRAM);
}

#[test]
fn random_netlists_and_rows() {
    programs::random_netlists_and_rows(&PROGRAM, 400);
}

/// Runs the case that TRACKER_CASE names, if it is one of the pages.
#[test]
fn one_case() {
    programs::one_case(&PROGRAM);
}
