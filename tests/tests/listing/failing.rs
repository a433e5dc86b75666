//! Reads that fail. What failed is said on standard error, with the system's
//! reason; where the rows fail, the lines so far stay and there is no last line.

use crate::PROGRAM;
use tests::programs::{self, failing, from_rows, two_inputs};

/// A failure within a row is no short row: it draws no 12.
#[test]
fn a_read_of_rows_fails() {
    let folder = PROGRAM.folder(Some(&two_inputs()));
    let cases: [(&[u8], &str); 3] = [
        (&[], ""),
        (&[2, 0, 1], "0 2 flow 2\n"),
        (&[2, 0, 1, 0], "0 2 flow 2\n1 1 clear\n"),
    ];
    for (bytes, lines) in cases {
        let (_ours, rows) = failing(bytes);
        let (printed, said) = from_rows(&PROGRAM, &folder, rows);
        assert_eq!(printed, lines);
        assert_eq!(said, "standard input: Resource temporarily unavailable\n");
    }
}

#[test]
fn rows_from_a_folder() {
    programs::rows_from_a_folder(&PROGRAM);
}

#[test]
fn a_folder_for_net_bin() {
    programs::a_folder_for_net_bin(&PROGRAM);
}
