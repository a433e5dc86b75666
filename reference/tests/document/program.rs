//! The programs `listing` and `pages` themselves, started in a folder of their own.

use crate::images::*;
use crate::listing::COUNTER_LISTING;
use crate::page_examples::{line, COUNTER_PAGE};
use std::fs;
use std::io::Write;
use std::path::PathBuf;
use std::process::{Command, Stdio};

/// What the listing program prints.
fn program(folder: &str, image: Option<&[u8]>, input: &[u8]) -> String {
    start(env!("CARGO_BIN_EXE_listing"), folder, image, input)
}

/// What the program `pages` prints.
fn pages(folder: &str, image: Option<&[u8]>, input: &[u8]) -> String {
    start(env!("CARGO_BIN_EXE_pages"), folder, image, input)
}

/// Starts a program in a new folder with this net.bin, if one is given, and gives
/// what it prints.
fn start(program: &str, folder: &str, image: Option<&[u8]>, input: &[u8]) -> String {
    let path = PathBuf::from(env!("CARGO_TARGET_TMPDIR")).join(folder);
    if path.exists() {
        fs::remove_dir_all(&path).unwrap();
    }
    fs::create_dir_all(&path).unwrap();
    if let Some(bytes) = image {
        fs::write(path.join("net.bin"), bytes).unwrap();
    }
    let mut child = Command::new(program)
        .current_dir(&path)
        .stdin(Stdio::piped())
        .stdout(Stdio::piped())
        .spawn()
        .unwrap();
    // A program that refuses the image may end before it reads the rows, so an
    // error of this write is of no account.
    let _ = child.stdin.take().unwrap().write_all(input);
    let output = child.wait_with_output().unwrap();
    assert!(output.status.success());
    String::from_utf8(output.stdout).unwrap()
}

#[test]
fn the_program_prints_the_counter() {
    let printed = program("counter", Some(&COUNTER), &COUNTER_ROWS);
    assert_eq!(printed, COUNTER_LISTING);
}

#[test]
fn a_missing_file_counts_as_0_bytes() {
    assert_eq!(program("missing", None, &COUNTER_ROWS), "refused 1 0\n");
}

#[test]
fn an_empty_file_is_0_bytes() {
    assert_eq!(program("empty", Some(&[]), &[]), "refused 1 0\n");
}

// The largest image is read whole: 8,191 CONSTs and an INPUT.
#[test]
fn the_largest_image_is_read_whole() {
    let mut nets = vec![(CONST, 0, 0, 0); 8191];
    nets.push((INPUT, 0, 0, 0));
    let printed = program("largest", Some(&counted(&nets)), &[3]);
    assert_eq!(printed, "0 - clear\nend 1\n");
}

// A file that is too long for its N draws 3, however long it is.
#[test]
fn a_file_that_is_too_long_draws_3() {
    let mut bytes = counted(&vec![(CONST, 0, 0, 0); 8192]);
    bytes.push(0);
    assert_eq!(program("long", Some(&bytes), &[]), "refused 3 0\n");
    bytes.extend(vec![0; 100_000]);
    assert_eq!(program("longer", Some(&bytes), &[]), "refused 3 0\n");
}

#[test]
fn the_program_prints_the_page_of_the_counter() {
    let printed = pages("counter-page", Some(&COUNTER), &COUNTER_ROWS);
    assert_eq!(printed, COUNTER_PAGE);
}

#[test]
fn no_pages_of_a_missing_or_empty_file() {
    assert_eq!(pages("no-page", None, &COUNTER_ROWS), "refused 1 0\n");
    assert_eq!(pages("empty-page", Some(&[]), &[]), "refused 1 0\n");
}

// The largest image is read whole: 8,190 CONSTs, an INPUT and an OUT of it, which
// is net 8,191. One byte more draws 3.
#[test]
fn the_pages_of_the_largest_image() {
    let mut nets = vec![(CONST, 0, 0, 0); 8190];
    nets.extend([(INPUT, 0, 0, 0), (OUT, 8190, 1, 0)]);
    let mut bytes = counted(&nets);
    let printed = pages("largest-page", Some(&bytes), &[3, 0]);
    assert_eq!(printed, line("cycle 0") + &line(" 8191 h0"));
    bytes.push(0);
    let printed = pages("long-page", Some(&bytes), &[3, 0]);
    assert_eq!(printed, "refused 3 0\n");
}
