//! The call `Write` of the language: pages of a record.

use super::page;
use super::reading::read_cases;

/// An INPUT, and an OUT of it as net 1.
const PASS_LINE: &str = "pass 2 1 0 1 | 1 8 | 0 0 0  0 0 0\n";

// A line of 70 characters has 63 blanks behind `cycle 0` and 62 behind two signs.
// Each newline is printed as a bar. With K = 0 nothing stands behind the word.
#[test]
fn pages_are_printed_with_bars() {
    let text = "\"write\" Write 2 image @pass rows 3 2 buffer 142*9\n\
                \"no page\" Write image @pass\n\
                +\", again\" Write 0 image @pass rows buffer\n";
    let heading = "cycle 0".to_string() + &" ".repeat(63) + "|";
    let output = "    1 hl".to_string() + &" ".repeat(62) + "|";
    let expected = format!(
        "write: accepted, page {heading}{output}\n\
         no page: accepted, page , again: accepted, page \n"
    );
    assert_eq!(page(&read_cases(&(PASS_LINE.to_string() + text))), expected);
}

// The doubled netlist is two INPUTs and two OUTs of 4 nets, which are 36 bytes. The
// pages of one cycle have 3 lines, which are 213 bytes.
#[test]
fn pages_of_a_doubled_image() {
    let text = "\"d\" Write 1 image @pass doubled 36*9 rows 0 1 buffer 213*9\n";
    let line = |text: &str| text.to_string() + &" ".repeat(70 - text.len()) + "|";
    let lines = line("cycle 0") + &line("    2 0") + &line("    3 1");
    let expected = format!("d: accepted, page {lines}\n");
    assert_eq!(page(&read_cases(&(PASS_LINE.to_string() + text))), expected);
}

// A refusal says of the buffer whether each of its bytes still is 9. Here another
// byte was in it from the start in the last case.
#[test]
fn a_refusal_is_printed_with_the_buffer() {
    let text = "\"13\" Write 2 image @pass rows 3 4 buffer 142*9\n\
                \"14\" Write 2 image @pass rows 3 buffer 142*9\n\
                \"19\" Write 2 image @pass rows 3 2\n\
                \"8s\" Write 2 image @pass rows 3 2 buffer 141*8\n";
    let expected = "13: refused 13 1, buffer as it was\n\
                    14: refused 14 0, buffer as it was\n\
                    19: refused 19 0, buffer as it was\n\
                    8s: refused 19 0, buffer changed\n";
    assert_eq!(page(&read_cases(&(PASS_LINE.to_string() + text))), expected);
}
