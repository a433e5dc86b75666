//! The listing as a function of an image and the input's bytes.

use crate::images::*;
use crate::inputs::{Pieces, Unread};
use reference::listing;
use std::io::Read;

/// The counter's listing in document 01.
pub const COUNTER_LISTING: &str = "\
0 0 clear
1 3 flow 5
2 2 flow 5
3 0 clear
end 4
";

/// The lines that the listing prints.
fn lines(image: &[u8], input: impl Read) -> String {
    let mut output = Vec::new();
    listing(image, input, &mut output).unwrap();
    String::from_utf8(output).unwrap()
}

#[test]
fn the_counter_listing() {
    assert_eq!(lines(&COUNTER, &COUNTER_ROWS[..]), COUNTER_LISTING);
}

#[test]
fn no_rows_print_the_end_alone() {
    assert_eq!(lines(&COUNTER, &[][..]), "end 0\n");
}

// A missing file counts as 0 bytes. An image under 8 bytes draws 1.
#[test]
fn a_missing_or_short_image() {
    assert_eq!(lines(&[], &COUNTER_ROWS[..]), "refused 1 0\n");
    assert_eq!(lines(&COUNTER[..7], &COUNTER_ROWS[..]), "refused 1 0\n");
    assert_eq!(lines(&COUNTER[..49], &COUNTER_ROWS[..]), "refused 3 0\n");
}

// Net 2 becomes NOT 2, whose pin is not below it: operand a of net 2 is at byte
// 14 + 6 * 2.
#[test]
fn a_refused_image_prints_its_place() {
    let mut image = COUNTER;
    image[26] = 2;
    assert_eq!(lines(&image, &COUNTER_ROWS[..]), "refused 5 2\n");
}

#[test]
fn no_inputs_print_end_0_and_read_nothing() {
    let image = counted(&[(REG, 0, 1, 0), (OUT, 0, 1, 0)]);
    assert_eq!(lines(&image, Unread), "end 0\n");
}

// A CONST of 2 draws 6 at net 0, although I is 0.
#[test]
fn a_refused_image_without_inputs_prints_its_refusal() {
    let image = counted(&[(CONST, 2, 0, 0)]);
    assert_eq!(lines(&image, &[0][..]), "refused 6 0\n");
    assert_eq!(lines(&[0; 8], &[][..]), "refused 2 0\n");
}

#[test]
fn no_outputs_print_a_dash() {
    let image = counted(&[(INPUT, 0, 0, 0)]);
    assert_eq!(lines(&image, &[3, 0][..]), "0 - clear\n1 - clear\nend 2\n");
}

// Net 1 is a free OUT of the row byte, net 3 a protected OUT of NOT of it. Row
// 2 gives 2 and 3 and a flow at net 3; row 1 gives 1 and 0.
#[test]
fn several_outputs_are_digits_without_a_space() {
    let image = counted(&[
        (INPUT, 0, 0, 0),
        (OUT, 0, 0, 0),
        (NOT, 0, 0, 0),
        (OUT, 2, 1, 0),
    ]);
    assert_eq!(
        lines(&image, &[2, 1][..]),
        "0 23 flow 3\n1 10 clear\nend 2\n"
    );
}

// I is 2, so three bytes are one row and a short one.
#[test]
fn a_short_last_row_is_12() {
    assert_eq!(
        lines(&two_inputs(), &[0, 1, 2][..]),
        "0 - clear\nrefused 12 0\n"
    );
    assert_eq!(lines(&two_inputs(), &[0][..]), "refused 12 0\n");
}

#[test]
fn a_short_last_row_is_12_even_with_a_bad_byte() {
    assert_eq!(
        lines(&two_inputs(), &[0, 1, 255][..]),
        "0 - clear\nrefused 12 0\n"
    );
}

// The index of 13 is counted within its row. The first bad byte is the second
// of row 1, and nothing after it is printed.
#[test]
fn a_bad_byte_is_13_with_its_place_in_the_row() {
    assert_eq!(
        lines(&two_inputs(), &[0, 1, 2, 4, 0, 0][..]),
        "0 - clear\nrefused 13 1\n"
    );
    assert_eq!(
        lines(&two_inputs(), &[255, 255, 0, 0][..]),
        "refused 13 0\n"
    );
}

// The earlier lines are those of the counter's listing, and no `end` follows.
#[test]
fn earlier_lines_stay() {
    assert_eq!(
        lines(&COUNTER, &[2, 0, 48][..]),
        "0 0 clear\n1 3 flow 5\nrefused 13 0\n"
    );
}

// A short read is not the end of input.
#[test]
fn input_in_pieces() {
    let counter = Pieces::new(&COUNTER_ROWS, 1);
    assert_eq!(lines(&COUNTER, counter), COUNTER_LISTING);
    for piece in 1..=5 {
        let whole = Pieces::new(&[0, 1, 2, 3], piece);
        assert_eq!(lines(&two_inputs(), whole), "0 - clear\n1 - clear\nend 2\n");
        let short = Pieces::new(&[0, 1, 2], piece);
        assert_eq!(lines(&two_inputs(), short), "0 - clear\nrefused 12 0\n");
    }
}

// With rows of 0 the counter's outputs are 0, 1, 0, 1 and so on. The limit of
// 4,096 cycles is for a run, so 5,000 rows are 5,000 lines.
#[test]
fn there_is_no_limit_of_4096_cycles() {
    let printed = lines(&COUNTER, &[0; 5000][..]);
    let mut expected = String::new();
    for cycle in 0..5000 {
        expected.push_str(&format!("{cycle} {} clear\n", cycle % 2));
    }
    expected.push_str("end 5000\n");
    assert_eq!(printed, expected);
}

// The register starts at 1 and holds its byte, so the listing powers up.
#[test]
fn the_listing_powers_up() {
    let image = counted(&[(INPUT, 0, 0, 0), (REG, 1, 1, 0), (OUT, 1, 0, 0)]);
    assert_eq!(lines(&image, &[0][..]), "0 1 clear\nend 1\n");
}
