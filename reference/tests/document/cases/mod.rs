//! The file crates/cases/stdin, read and executed here by the reference. What
//! the program `cases` has to print, crates/cases/stdout, must be the same.

mod calls;
mod executing;
mod printing;
mod reading;
mod static_calls;
mod write;

use executing::execute;
use reading::{read_cases, Case};

/// A file of crates/cases.
fn file(name: &str) -> String {
    let folder = concat!(env!("CARGO_MANIFEST_DIR"), "/../crates/cases/");
    std::fs::read_to_string(format!("{folder}{name}")).unwrap()
}

/// What the cases print. A case that begins a line ends the one before it.
fn page(cases: &[Case]) -> String {
    let mut page = String::new();
    for case in cases {
        if !case.goes_on && !page.is_empty() {
            page.push('\n');
        }
        page.push_str(&case.name);
        execute(case, &mut page);
    }
    page.push('\n');
    page
}

#[test]
fn the_program_prints_what_the_reference_does() {
    let text = file("stdin");
    let cases = read_cases(&text);
    let stdout = file("stdout");
    let page = page(&cases);
    for (number, (here, there)) in page.lines().zip(stdout.lines()).enumerate() {
        assert_eq!(here, there, "line {} of crates/cases/stdout", number + 1);
    }
    assert_eq!(page, stdout);
}

// The figures of the counter, of the doubled counter, and of 7 bytes, which draw
// 1. Their values are those of sizes.rs.
#[test]
fn figures_are_printed_on_one_line() {
    let text = "counter 6 1 1 1 | 1 2 3 3 4 8 | 3*0  4 0 0  1 0 0  0 0 0  2 3 0  1 1 0\n\
                \"figures, the counter\" Figures image @counter\n\
                \"figures, the doubled counter\" Figures image @counter doubled 120*9\n\
                \"figures, 7 bytes\" Figures image | 7*0\n\
                +\", kind 9\" Figures image 1 0 0 0 | 9 | 0 0 0\n";
    let expected = "figures, the counter: accepted, nets 16, bytes 120, kinds 0 2 2 2 4 4 0 0 2\n\
         figures, the doubled counter: accepted, nets 72, bytes 512, kinds 0 4 4 10 28 22 0 0 4\n\
         figures, 7 bytes: refused 1 0, nets 0, bytes 0, kinds 0 0 0 0 0 0 0 0 0\
         , kind 9: refused 4 0, nets 0, bytes 0, kinds 0 0 0 0 0 0 0 0 0\n";
    assert_eq!(page(&read_cases(text)), expected);
}
