//! Pages worked out by hand: request L6 of document 02.
//!
//! A line has 5 columns for the word `cycle` or the net number, a blank, and 64
//! columns for the first cycle number or the signs: 5 + 1 + 64 = 70 characters,
//! and 71 bytes with the newline.

use crate::counter::counter_run;
use crate::images::*;
use crate::pins::inverted;
use reference::page;

/// The page of the counter with its four rows in document 01. The OUT is net 5,
/// and its bytes are 0, 3, 2, 0 (C12): 0, untrusted 1, untrusted 0, 0. Behind the
/// first cycle number, which is 0, stand 63 blanks, and behind the four signs 60.
pub const COUNTER_PAGE: &str = "\
cycle 0                                                               \n\
\x20   5 0hl0                                                            \n";

/// A line of which the text is given up to its last column that is not blank.
pub fn line(text: &str) -> String {
    assert!(text.len() <= 70);
    text.to_string() + &" ".repeat(70 - text.len()) + "\n"
}

/// The lines of a page, each given as `line` takes it.
pub fn lines(texts: &[&str]) -> String {
    texts.iter().map(|text| line(text)).collect()
}

/// The text of the pages of a record. The buffer has 71 bytes for each line, and
/// they are 77 before the call.
pub fn written(image: &[u8], k: usize, record: &[u8], lines: usize) -> String {
    let mut buffer = vec![77; lines * 71];
    assert_eq!(page(image, k, record, &mut buffer), Ok(()));
    String::from_utf8(buffer).unwrap()
}

/// An INPUT as net 0, a free OUT of it at each of these nets, and CONSTs at all
/// others below the last OUT.
pub fn outs_at(numbers: &[usize]) -> Vec<u8> {
    let mut nets = vec![(CONST, 0, 0, 0); numbers[numbers.len() - 1] + 1];
    nets[0] = (INPUT, 0, 0, 0);
    for number in numbers {
        nets[*number] = (OUT, 0, 0, 0);
    }
    counted(&nets)
}

#[test]
fn the_page_of_the_counter() {
    assert_eq!(COUNTER_PAGE.len(), 142);
    assert_eq!(COUNTER_PAGE, lines(&["cycle 0", "    5 0hl0"]));
    let (_, record, _) = counter_run();
    assert_eq!(record, [0, 3, 2, 0]);
    assert_eq!(written(&COUNTER, 4, &record, 2), COUNTER_PAGE);
}

#[test]
fn one_cycle_of_each_byte() {
    for (byte, text) in [
        (0, "    5 0"),
        (1, "    5 1"),
        (2, "    5 l"),
        (3, "    5 h"),
    ] {
        let expected = lines(&["cycle 0", text]);
        assert_eq!(written(&COUNTER, 1, &[byte], 2), expected);
    }
}

// The record has cycle after cycle, and each of them in output order. Output 0 at
// net 1 has the bytes 0 and 3, output 1 at net 4 has 1 and 2, and output 2 at net
// 5 has 2 and 1.
#[test]
fn several_outputs_have_a_line_each() {
    let record = [0, 1, 2, 3, 2, 1];
    let expected = lines(&["cycle 0", "    1 0h", "    4 1l", "    5 l1"]);
    assert_eq!(written(&outs_at(&[1, 4, 5]), 2, &record, 4), expected);
}

#[test]
fn net_numbers_of_1_to_4_digits() {
    let image = outs_at(&[9, 10, 99, 100, 999, 1000, 8191]);
    let expected = lines(&[
        "cycle 0", "    9 0", "   10 1", "   99 l", "  100 h", "  999 0", " 1000 1", " 8191 l",
    ]);
    assert_eq!(written(&image, 1, &[0, 1, 2, 3, 0, 1, 2], 8), expected);
}

// An OUT has a line whether it is free or protected, whatever its pin names, and
// also if its pin is inverted. The bytes of the record are shown as they are.
#[test]
fn the_record_is_shown_whatever_the_outs_read() {
    let image = counted(&[
        (CONST, 0, 0, 0),
        (OUT, 0, 1, 0),
        (OUT, inverted(1), 0, 0),
        (OUT, inverted(0), 1, 0),
    ]);
    let expected = lines(&["cycle 0", "    1 h", "    2 l", "    3 1"]);
    assert_eq!(written(&image, 1, &[3, 2, 1], 4), expected);
}

/// A text of the signs of equal bytes.
fn signs(sign: &str, times: usize) -> String {
    "    5 ".to_string() + &sign.repeat(times)
}

// 64 cycles fill one page to its last column, without a blank at its end.
#[test]
fn a_page_of_64_cycles() {
    let text = signs("h", 64);
    assert_eq!(text.len(), 70);
    let expected = lines(&["cycle 0", &text]);
    assert_eq!(written(&COUNTER, 64, &[3; 64], 2), expected);
    let expected = lines(&["cycle 0", &signs("h", 63)]);
    assert_eq!(written(&COUNTER, 63, &[3; 63], 2), expected);
}

// The 65th cycle is cycle 64. It is the first of a second page.
#[test]
fn pages_of_65_cycles() {
    let mut record = [2; 65];
    record[63] = 1;
    record[64] = 3;
    let first = signs("l", 63) + "1";
    let expected = lines(&["cycle 0", &first, "cycle 64", "    5 h"]);
    assert_eq!(written(&COUNTER, 65, &record, 4), expected);
}

#[test]
fn pages_of_128_cycles() {
    let mut record = [0; 128];
    record[64..].fill(1);
    let expected = lines(&["cycle 0", &signs("0", 64), "cycle 64", &signs("1", 64)]);
    assert_eq!(written(&COUNTER, 128, &record, 4), expected);
}

// 130 = 64 + 64 + 2, so that there are three pages, and the last has 62 blanks
// behind each of its signs. Output 0 at net 9 is 0 in the first page, 1 in the
// second and 2 in the third, and output 1 at net 10 is 3 all the time.
#[test]
fn pages_of_130_cycles_and_two_outputs() {
    let mut record = Vec::new();
    for cycle in 0..130 {
        record.extend([cycle / 64, 3]);
    }
    let net_9 = |sign: &str, times: usize| "    9 ".to_string() + &sign.repeat(times);
    let net_10 = |times: usize| "   10 ".to_string() + &"h".repeat(times);
    let expected = lines(&["cycle 0", &net_9("0", 64), &net_10(64)])
        + &lines(&["cycle 64", &net_9("1", 64), &net_10(64)])
        + &lines(&["cycle 128", &net_9("l", 2), &net_10(2)]);
    assert_eq!(written(&outs_at(&[9, 10]), 130, &record, 9), expected);
}

#[test]
fn no_cycles_give_no_page() {
    assert_eq!(page(&COUNTER, 0, &[], &mut []), Ok(()));
    assert_eq!(page(&two_inputs(), 0, &[], &mut []), Ok(()));
}

// With O = 0 the record has no byte. 1, 64, 65 and 130 cycles have 1, 1, 2 and 3
// headings.
#[test]
fn no_outputs_give_headings_alone() {
    let headings = ["cycle 0", "cycle 64", "cycle 128"];
    for (k, pages) in [(1, 1), (64, 1), (65, 2), (128, 2), (130, 3)] {
        let expected = lines(&headings[..pages]);
        assert_eq!(written(&two_inputs(), k, &[], pages), expected);
    }
}

// 4,096 = 64 * 64, so that there are 64 pages of 2 lines. The last begins with
// cycle 63 * 64 = 4,032. The record is 0 but for the last cycle.
#[test]
fn pages_of_4096_cycles() {
    let mut record = vec![0; 4096];
    record[4095] = 3;
    let mut expected = String::new();
    for number in 0..63 {
        expected += &lines(&[&format!("cycle {}", 64 * number), &signs("0", 64)]);
    }
    expected += &lines(&["cycle 4032", &(signs("0", 63) + "h")]);
    assert_eq!(written(&COUNTER, 4096, &record, 128), expected);
}
