//! The refusals of pages: request L6 of document 02. The image meets 1 to 8, then
//! come 9, 13, 14 and 19. `page_refuses` sees to it that no lent byte changed.

use crate::images::*;
use crate::lent::page_refuses;
use crate::page_examples::{outs_at, written};
use crate::unchanged::bad_images;
use reference::page;

/// One CONST, with I = 1 although there is no INPUT.
fn wrong_count() -> Vec<u8> {
    image(1, 0, 0, &[(CONST, 0, 0, 0)])
}

// The lengths are those of the counter with K = 4. In the second call K is above
// 4,096, the record has a bad byte and so on.
#[test]
fn refusals_1_to_8_before_all_others() {
    for (image, number, place) in bad_images() {
        page_refuses(&image, 4, (&[0, 3, 2, 0], 142), number, place);
        page_refuses(&image, 4097, (&[77], 9), number, place);
    }
}

// One CONST has no OUT, so that with K = 4,097 and no record only the length of
// the pages is wrong besides. 4,097 cycles would be 65 pages.
#[test]
fn refusal_8_before_9() {
    page_refuses(&wrong_count(), 4097, (&[], 0), 8, 0);
    page_refuses(&wrong_count(), 4097, (&[], 65 * 71), 8, 0);
    page_refuses(&wrong_count(), 1, (&[4], 71), 8, 0);
    page_refuses(&wrong_count(), 0, (&[], 1), 8, 0);
}

// All lengths are those of 4,097 cycles: 65 pages of two lines, and of one line
// where O is 0. Products of the largest numbers with O would overflow.
#[test]
fn refusal_9_is_k_above_4096() {
    page_refuses(&COUNTER, 4097, (&[0; 4097], 65 * 2 * 71), 9, 0);
    page_refuses(&two_inputs(), 4097, (&[], 65 * 71), 9, 0);
    let three = outs_at(&[1, 2, 3]);
    for k in [65536, usize::MAX / 3, usize::MAX / 2 + 1, usize::MAX] {
        page_refuses(&three, k, (&[], 0), 9, 0);
    }
}

#[test]
fn refusal_9_before_13_14_and_19() {
    page_refuses(&COUNTER, 4097, (&[4; 4097], 65 * 2 * 71), 9, 0);
    page_refuses(&COUNTER, 4097, (&[4], 9), 9, 0);
    page_refuses(&COUNTER, 4097, (&[0; 4096], 65 * 2 * 71), 9, 0);
    page_refuses(&COUNTER, 4097, (&[0; 4097], 64 * 2 * 71), 9, 0);
}

// Each byte above 3 is bad, 4 and 6 too, which are codes of a static run. The
// bytes before it are good, and the byte behind it is bad too.
#[test]
fn refusal_13_has_the_index_of_the_first_bad_byte() {
    for bad in 4..=255 {
        page_refuses(&COUNTER, 4, (&[bad, 0, 255, 0], 142), 13, 0);
        page_refuses(&COUNTER, 4, (&[3, bad, 4, 0], 142), 13, 1);
        page_refuses(&COUNTER, 4, (&[0, 1, 2, bad], 142), 13, 3);
    }
}

// The index counts through the whole record: with three outputs, output 1 of cycle
// 2 is at 2 * 3 + 1, and output 2 of cycle 65, in the second page, is at 197.
#[test]
fn refusal_13_counts_through_all_cycles() {
    let image = outs_at(&[1, 2, 3]);
    let mut record = [3; 9];
    record[7] = 4;
    page_refuses(&image, 3, (&record, 4 * 71), 13, 7);
    let mut record = [3; 198];
    record[197] = 4;
    page_refuses(&image, 66, (&record, 8 * 71), 13, 197);
}

// A record that is too short or too long, with a bad byte among those that are
// due or behind them.
#[test]
fn refusal_13_before_14() {
    page_refuses(&COUNTER, 4, (&[0, 3, 4], 142), 13, 2);
    page_refuses(&COUNTER, 4, (&[0, 3, 2, 0, 4], 142), 13, 4);
    page_refuses(&COUNTER, 4, (&[255, 3, 2, 0, 4], 142), 13, 0);
    page_refuses(&COUNTER, 0, (&[4], 0), 13, 0);
    page_refuses(&two_inputs(), 1, (&[0, 4], 71), 13, 1);
}

#[test]
fn refusal_13_before_19() {
    page_refuses(&COUNTER, 4, (&[0, 3, 2, 4], 141), 13, 3);
    page_refuses(&COUNTER, 4, (&[0, 3, 2, 0, 4], 143), 13, 4);
}

#[test]
fn refusal_14_is_a_record_not_k_times_o() {
    page_refuses(&COUNTER, 4, (&[0, 3, 2], 142), 14, 0);
    page_refuses(&COUNTER, 4, (&[0, 3, 2, 0, 0], 142), 14, 0);
    page_refuses(&COUNTER, 4, (&[], 142), 14, 0);
    page_refuses(&COUNTER, 0, (&[0], 0), 14, 0);
    page_refuses(&two_inputs(), 1, (&[0], 71), 14, 0);
    page_refuses(&outs_at(&[1, 2, 3]), 2, (&[0; 5], 4 * 71), 14, 0);
    page_refuses(&outs_at(&[1, 2, 3]), 2, (&[0; 7], 4 * 71), 14, 0);
}

// The last of these has a page buffer for the two cycles that its record has.
#[test]
fn refusal_14_before_19() {
    page_refuses(&COUNTER, 4, (&[0, 3, 2], 141), 14, 0);
    page_refuses(&COUNTER, 4, (&[0, 3, 2, 0, 0], 0), 14, 0);
    page_refuses(&COUNTER, 0, (&[0], 1), 14, 0);
    page_refuses(&COUNTER, 65, (&[0, 0], 142), 14, 0);
}

// The counter with 4 cycles has one page of two lines: 142 bytes. 140 would be
// without the newlines, and 71 without the heading or without the output. 65
// cycles have two such pages.
#[test]
fn refusal_19_is_a_page_buffer_not_the_pages() {
    for length in [0, 71, 140, 141, 143, 213, 284] {
        page_refuses(&COUNTER, 4, (&[0, 3, 2, 0], length), 19, 0);
    }
    for length in [0, 142, 283, 285] {
        page_refuses(&COUNTER, 65, (&[0; 65], length), 19, 0);
    }
    page_refuses(&COUNTER, 64, (&[0; 64], 284), 19, 0);
}

// With K = 0 there is no page, and with O = 0 there are headings alone.
#[test]
fn refusal_19_with_no_cycles_and_with_no_outputs() {
    for length in [1, 71, 142] {
        page_refuses(&COUNTER, 0, (&[], length), 19, 0);
        page_refuses(&two_inputs(), 0, (&[], length), 19, 0);
    }
    for length in [0, 70, 72, 142] {
        page_refuses(&two_inputs(), 64, (&[], length), 19, 0);
    }
    page_refuses(&two_inputs(), 65, (&[], 71), 19, 0);
}

// The largest numbers of all: 8,191 OUTs and 4,096 cycles. The record would have
// 33,550,336 bytes and the pages 64 * 8,192 * 71 = 37,224,448.
#[test]
fn the_largest_lengths_are_refused_by_one_byte() {
    let image = outs_at(&(1..8192).collect::<Vec<_>>());
    page_refuses(&image, 4096, (&[], 0), 14, 0);
    let record = vec![0; 33550336];
    page_refuses(&image, 4096, (&record[1..], 0), 14, 0);
    page_refuses(&image, 4096, (&record, 37224447), 19, 0);
}

// The bytes 0 to 3 are accepted at each place, and what the page buffer held is
// not looked at.
#[test]
fn all_good_bytes_are_accepted() {
    for byte in 0..=3 {
        let expected = written(&COUNTER, 3, &[byte; 3], 2);
        for fill in [0, 32, 255] {
            let mut buffer = [fill; 142];
            assert_eq!(page(&COUNTER, 3, &[byte; 3], &mut buffer), Ok(()));
            assert_eq!(buffer[..], *expected.as_bytes());
        }
    }
}
