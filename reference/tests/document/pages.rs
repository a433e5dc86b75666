//! The program `pages` of request L6 of document 02, as a function of an image and
//! the input's bytes.

use crate::images::*;
use crate::inputs::{Pieces, Unread};
use crate::page_examples::{line, lines, outs_at, COUNTER_PAGE};
use reference::pages;
use std::io::Read;

/// What the program prints.
fn printed(image: &[u8], input: impl Read) -> String {
    let mut output = Vec::new();
    pages(image, input, &mut output).unwrap();
    String::from_utf8(output).unwrap()
}

/// The headings of the pages that begin with these cycles.
fn headings(cycles: &[usize]) -> String {
    let heading = |cycle: &usize| line(&format!("cycle {cycle}"));
    cycles.iter().map(heading).collect()
}

// There is no `end` line.
#[test]
fn the_pages_of_the_counter() {
    assert_eq!(printed(&COUNTER, &COUNTER_ROWS[..]), COUNTER_PAGE);
}

#[test]
fn no_rows_print_nothing() {
    assert_eq!(printed(&COUNTER, &[][..]), "");
    assert_eq!(printed(&two_inputs(), &[][..]), "");
}

#[test]
fn no_inputs_print_nothing_and_read_nothing() {
    let image = counted(&[(REG, 0, 1, 0), (OUT, 0, 1, 0)]);
    assert_eq!(printed(&image, Unread), "");
}

// A missing file counts as 0 bytes, and an image under 8 bytes draws 1. Net 2 of
// the last image is NOT 2: operand a of net 2 is at byte 14 + 6 * 2.
#[test]
fn a_refused_image_prints_its_refusal_alone() {
    assert_eq!(printed(&[], &COUNTER_ROWS[..]), "refused 1 0\n");
    assert_eq!(printed(&COUNTER[..49], &COUNTER_ROWS[..]), "refused 3 0\n");
    let mut image = COUNTER;
    image[26] = 2;
    assert_eq!(printed(&image, Unread), "refused 5 2\n");
}

// A CONST of 2 draws 6 at net 0, although I is 0.
#[test]
fn a_refused_image_without_inputs_prints_its_refusal() {
    let image = counted(&[(CONST, 2, 0, 0)]);
    assert_eq!(printed(&image, &[0][..]), "refused 6 0\n");
}

// I is 2 and O is 0. 128 and 130 row bytes are 64 and 65 rows.
#[test]
fn no_outputs_print_headings_alone() {
    assert_eq!(printed(&two_inputs(), &[3, 0][..]), headings(&[0]));
    assert_eq!(printed(&two_inputs(), &[1; 128][..]), headings(&[0]));
    assert_eq!(printed(&two_inputs(), &[1; 130][..]), headings(&[0, 64]));
}

// Both OUTs show the row byte.
#[test]
fn several_outputs() {
    let expected = lines(&["cycle 0", "    9 lh01", "   10 lh01"]);
    assert_eq!(printed(&outs_at(&[9, 10]), &[2, 3, 0, 1][..]), expected);
}

/// A page of the netlist with one OUT at net 1, which shows its row bytes: 64 of
/// them, all with this sign.
fn full_page(first: &str, sign: &str) -> String {
    lines(&[first, &("    1 ".to_string() + &sign.repeat(64))])
}

// 64 rows are one page, with none behind it, and the row behind them begins a
// second page.
#[test]
fn pages_of_64_65_128_and_130_rows() {
    let image = outs_at(&[1]);
    let mut rows = [3; 130];
    rows[64..].fill(2);
    rows[128..].fill(1);
    let first = full_page("cycle 0", "h");
    assert_eq!(printed(&image, &rows[..64]), first);
    let second = lines(&["cycle 64", "    1 l"]);
    assert_eq!(printed(&image, &rows[..65]), first.clone() + &second);
    let both = first + &full_page("cycle 64", "l");
    assert_eq!(printed(&image, &rows[..128]), both);
    let third = lines(&["cycle 128", "    1 11"]);
    assert_eq!(printed(&image, &rows[..]), both + &third);
}

// The place of 13 is counted within its row. I is 2, and the bad byte is the
// second of row 1. The page of row 0 is filled with blanks and stands before the
// refusal, and nothing stands behind it.
#[test]
fn a_refusal_comes_behind_the_page_of_the_rows_before_it() {
    let rows = [0, 1, 2, 4, 0, 0];
    assert_eq!(
        printed(&two_inputs(), &rows[..]),
        headings(&[0]) + "refused 13 1\n"
    );
    let expected = lines(&["cycle 0", "    5 0h"]) + "refused 13 0\n";
    assert_eq!(printed(&COUNTER, &[2, 0, 48][..]), expected);
    assert_eq!(printed(&COUNTER, &[48, 0][..]), "refused 13 0\n");
}

// A short last row is 12 at place 0, also if one of its bytes is bad.
#[test]
fn a_short_last_row_is_12() {
    let expected = headings(&[0]) + "refused 12 0\n";
    assert_eq!(printed(&two_inputs(), &[0, 1, 2][..]), expected);
    assert_eq!(printed(&two_inputs(), &[0, 1, 255][..]), expected);
    assert_eq!(printed(&two_inputs(), &[0][..]), "refused 12 0\n");
}

// Behind 64 good rows the page is full, and the refusal follows without another
// page. Behind 65 there is a second page of one cycle.
#[test]
fn a_refusal_behind_a_full_page() {
    let image = outs_at(&[1]);
    let mut rows = [0; 66];
    rows[65] = 4;
    let first = full_page("cycle 0", "0");
    let expected = first.clone() + "refused 13 0\n";
    assert_eq!(printed(&image, &rows[1..]), expected);
    let second = lines(&["cycle 64", "    1 0"]);
    let expected = first + &second + "refused 13 0\n";
    assert_eq!(printed(&image, &rows[..]), expected);
}

// The register starts at 1 and holds its byte, so the program powers up. One with
// start 2 wakes as untrusted 0.
#[test]
fn the_program_powers_up() {
    for (start, sign) in [(0, "0"), (1, "1"), (2, "l")] {
        let image = counted(&[(INPUT, 0, 0, 0), (REG, 1, start, 0), (OUT, 1, 0, 0)]);
        let text = "    2 ".to_string() + sign;
        assert_eq!(printed(&image, &[0][..]), lines(&["cycle 0", &text]));
    }
}

// With rows of 0 the counter's outputs are 0, 1, 0, 1 and so on. The limit of
// 4,096 cycles is for a run. 5,000 = 78 * 64 + 8, so there are 78 full pages, and
// the last one begins with cycle 4,992 and has 8 cycles.
#[test]
fn there_is_no_limit_of_4096_cycles() {
    let mut expected = String::new();
    for number in 0..78 {
        expected += &line(&format!("cycle {}", 64 * number));
        expected += &line(&format!("    5 {}", "01".repeat(32)));
    }
    expected += &lines(&["cycle 4992", "    5 01010101"]);
    assert_eq!(printed(&COUNTER, &[0; 5000][..]), expected);
}

// A short read is not the end of input.
#[test]
fn input_in_pieces() {
    let counter = Pieces::new(&COUNTER_ROWS, 1);
    assert_eq!(printed(&COUNTER, counter), COUNTER_PAGE);
    for piece in 1..=5 {
        let whole = Pieces::new(&[1; 130], piece);
        assert_eq!(printed(&two_inputs(), whole), headings(&[0, 64]));
        let short = Pieces::new(&[1; 129], piece);
        let expected = headings(&[0]) + "refused 12 0\n";
        assert_eq!(printed(&two_inputs(), short), expected);
    }
}
