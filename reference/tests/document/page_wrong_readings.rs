//! Wrong readings of request L6 of document 02, each as a test that the wrong
//! reading fails.

use crate::images::*;
use crate::lent::page_refuses;
use crate::page_examples::{line, outs_at, written};

/// The lines of the pages of a record of the counter.
fn counter_lines(record: &[u8], lines: usize) -> Vec<String> {
    let text = written(&COUNTER, record.len(), record, lines);
    text.split_inclusive('\n').map(str::to_string).collect()
}

// With 65 cycles a page, or with 71 characters a line, cycle 64 would stand at the
// end of the first page. With 63 cycles, or with a last column that is always
// blank, cycle 63 would stand in the second one. Their bytes are the only marked
// ones, and they differ.
#[test]
fn a_page_has_neither_65_nor_63_cycles() {
    let mut record = [0; 66];
    record[63] = 2;
    record[64] = 3;
    let lines = counter_lines(&record, 4);
    assert_eq!(lines[1], "    5 ".to_string() + &"0".repeat(63) + "l\n");
    assert_eq!(lines[3], line("    5 h0"));
}

// Set left, the number 5 would stand in column 1. Filled with zeros, it would be
// 00005.
#[test]
fn the_net_number_is_set_right_and_filled_with_blanks() {
    let bytes = counter_lines(&[1], 2)[1].clone().into_bytes();
    assert_eq!(bytes[..8], *b"    5 1 ");
}

// Columns 1 to 5 hold the net number and column 6 is blank, also for a number of
// four digits, where a line of 4 columns would begin with the number.
#[test]
fn a_number_of_four_digits_has_a_blank_before_it() {
    let text = written(&outs_at(&[8191]), 1, &[1], 2);
    assert_eq!(text[71..79], *" 8191 1 ");
}

// The word stands for the first cycle of its page and not for the page: the second
// page's heading has 64, where its number would be 1 or 2, and where a count from
// 1 would give 65. The cycle number is set left, where one set right would end in
// column 70.
#[test]
fn the_heading_has_the_first_cycle_number_set_left() {
    let lines = counter_lines(&[0; 129], 6);
    let headings = [&lines[0], &lines[2], &lines[4]];
    assert_eq!(
        headings,
        [&line("cycle 0"), &line("cycle 64"), &line("cycle 128")]
    );
}

// l is low and h is high: untrusted 0 and untrusted 1. A mark alone, as the digits
// 2 and 3, or with l and h exchanged, would be seen here.
#[test]
fn l_is_untrusted_0_and_h_is_untrusted_1() {
    let lines = counter_lines(&[2, 3, 0, 1], 2);
    assert_eq!(lines[1], line("    5 lh01"));
}

// A line that ends behind its last sign would have 7 characters here, and its
// buffer would not be 142 bytes. A blank is the character 32 and no 0.
#[test]
fn lines_are_filled_with_blanks() {
    let text = written(&COUNTER, 1, &[1], 2);
    assert_eq!(text.len(), 142);
    assert!(text[78..141].bytes().all(|byte| byte == 32));
    assert!(text[7..70].bytes().all(|byte| byte == 32));
    page_refuses(&COUNTER, 1, (&[1], 8 + 8), 19, 0);
}

// A carriage return, or no newline behind the last line, would be seen here.
#[test]
fn each_line_ends_with_a_newline() {
    let bytes = written(&COUNTER, 65, &[0; 65], 4).into_bytes();
    for (index, byte) in bytes.iter().enumerate() {
        assert_eq!(*byte == 10, index % 71 == 70);
        assert!(*byte == 10 || (32..127).contains(byte));
    }
}

// The counter's OUT is net 5, and its pin is net 1. As an output it is number 0.
#[test]
fn the_number_is_neither_that_of_the_pin_nor_of_the_output() {
    assert!(counter_lines(&[0], 2)[1].starts_with("    5 0"));
}

// With two outputs the record 0, 1, 2, 3 has the bytes 0 and 1 in cycle 0. Read
// output after output, net 1 would show 01.
#[test]
fn the_record_has_cycle_after_cycle() {
    let text = written(&outs_at(&[1, 2]), 2, &[0, 1, 2, 3], 3);
    assert_eq!(text[71..], line("    1 0l") + &line("    2 1h"));
}

// Each page has a heading and all outputs. With one heading for all of them, or
// with all pages of one output before those of the next, the order would differ.
#[test]
fn a_page_has_all_outputs_behind_its_heading() {
    let text = written(&outs_at(&[1, 2]), 65, &[0; 130], 6);
    let mut words = Vec::new();
    for line in text.lines() {
        words.push(line[..5].trim());
    }
    assert_eq!(words, ["cycle", "1", "2", "cycle", "1", "2"]);
}

// K = 0 and K = 64 would have an empty page behind them, if a page were begun
// before its first cycle is there.
#[test]
fn no_page_is_without_a_cycle() {
    assert_eq!(written(&COUNTER, 0, &[], 0), "");
    assert_eq!(counter_lines(&[0; 64], 2).len(), 2);
    page_refuses(&COUNTER, 0, (&[], 142), 19, 0);
    page_refuses(&COUNTER, 64, (&[0; 64], 284), 19, 0);
}

// In the order of a step's rows, where 12 comes before 13, the length would come
// first. By the numbers, 13 is before 14.
#[test]
fn the_bytes_of_the_record_come_before_its_length() {
    page_refuses(&COUNTER, 2, (&[0, 0, 4], 142), 13, 2);
}
