//! Reads that fail. What failed is said on standard error, with the system's reason;
//! where the rows fail, the pages so far stay, and there is no further page and no
//! last line.

use crate::{line, PROGRAM};
use tests::programs::{self, failing, from_rows, two_inputs};

/// A failure within a page shows none of its rows, and a failure within a row is no
/// short row. A row is two bytes, of which the first is shown: with rows of 1 and 2,
/// 64 of them are a page of 1s.
#[test]
fn a_read_of_rows_fails() {
    let folder = PROGRAM.folder(Some(&two_inputs()));
    let page = |first| {
        let lines = [line("cycle", first), line("    2", &"1".repeat(64))];
        [&lines[0], "\n", &lines[1], "\n"].concat()
    };
    let one = page("0");
    let two = [page("0"), page("64")].concat();
    let cases: [(usize, &str); 8] = [
        (0, ""),
        (1, ""),
        (2 * 63 + 1, ""),
        (2 * 64, &one),
        (2 * 64 + 1, &one),
        (2 * 65, &one),
        (2 * 128, &two),
        (2 * 128 + 5, &two),
    ];
    for (length, pages) in cases {
        let rows = [1, 2].repeat(200);
        let (_ours, rows) = failing(&rows[..length]);
        let (printed, said) = from_rows(&PROGRAM, &folder, rows);
        assert_eq!(printed, pages, "{length} row bytes");
        assert_eq!(said, "standard input: Resource temporarily unavailable\n");
    }
}

#[test]
fn rows_from_a_folder() {
    programs::rows_from_a_folder(&PROGRAM);
}

#[test]
fn a_folder_for_net_bin() {
    programs::a_folder_for_net_bin(&PROGRAM);
}
