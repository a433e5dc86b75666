//! The listing program against the reference's listing.

mod failing;
mod long;
mod planned;
mod waiting;

use std::io::Cursor;

use tests::programs::{self, Program};

const PROGRAM: Program = Program {
    name: "listing",
    variable: "TRACKER_LISTING",
    folders: env!("CARGO_TARGET_TMPDIR"),
    reference: lines,
};

/// The lines that the reference prints.
fn lines(image: &[u8], rows: &[u8]) -> Vec<u8> {
    let mut lines = Vec::new();
    reference::listing(image, Cursor::new(rows), &mut lines).expect("writing to memory");
    lines
}

#[test]
fn a_closed_pipe_ends_the_program() {
    programs::a_closed_pipe_ends_it(&PROGRAM);
}

#[test]
#[cfg(target_os = "linux")]
fn a_full_device_ends_the_program() {
    programs::a_full_device_ends_it(&PROGRAM);
}

#[test]
fn random_netlists_and_rows() {
    programs::random_netlists_and_rows(&PROGRAM, 400);
}

/// Runs the case that TRACKER_CASE names, if it is one of the listing.
#[test]
fn one_case() {
    programs::one_case(&PROGRAM);
}
