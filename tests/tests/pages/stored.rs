//! Pages that were written by hand, of the counter and of 130 cycles with three outputs.

use crate::{line, PROGRAM};
use tests::programs::planned::PIECES;
use tests::programs::{counter, Pieces};
use tracker::kinds::{CONST, INPUT, INVERTED, OUT, REG};
use tracker::{encode, Net};

/// The program prints this text, in whatever pieces the rows come.
fn prints(image: &[u8], rows: &[u8], text: &str) {
    for size in PIECES {
        let ended = PROGRAM.run(Some(image), rows, Pieces::of(size));
        assert_eq!(String::from_utf8_lossy(&ended.lines), text);
        assert_eq!(ended.said, "");
        assert!(ended.status.success());
    }
}

/// The example at the end of document 01: on the rows 2, 0, 1 and 0 its output bytes
/// are 0, 3, 2 and 0.
#[test]
fn the_counter_of_the_document() {
    let text = [line("cycle", "0"), line("    5", "0hl0"), String::new()].join("\n");
    prints(&counter(), &[2, 0, 1, 0], &text);
}

/// Three sources, and 1,232 other nets: CONSTs, and the OUTs 4, 56 and 1,234 on the
/// sources. 0 INPUT; 1 REG(0, start 1); 2 REG(inverted 2, start 0).
fn three_outputs() -> Vec<u8> {
    let mut nets = vec![Net::new(CONST, 0, 0, 0); 1235];
    nets[0] = Net::new(INPUT, 0, 0, 0);
    nets[1] = Net::new(REG, 0, 1, 0);
    nets[2] = Net::new(REG, INVERTED + 2, 0, 0);
    nets[4] = Net::new(OUT, 0, 0, 0);
    nets[56] = Net::new(OUT, 1, 0, 0);
    nets[1234] = Net::new(OUT, 2, 1, 0);
    encode(&nets)
}

/// The rows are 0, 1, 2, 3 and 3, again and again, so that net 4 shows 01lhh again and
/// again. Net 56 shows the same one cycle later, behind its start 1. Net 1,234 shows 0
/// and 1 in turn. The second page begins with cycle 64, whose row is the last of five,
/// and the third, which has two cycles, with cycle 128, whose row is the fourth.
#[test]
fn a_hundred_and_thirty_cycles_and_three_outputs() {
    let rows = [0, 1, 2, 3, 3].repeat(26);
    assert_eq!(rows.len(), 130);
    prints(&three_outputs(), &rows, include_str!("three_outputs.txt"));
}

/// A refusal is the last line, behind the pages of the rows before it.
#[test]
fn a_refusal_behind_the_pages() {
    let mut rows = [0, 1, 2, 3, 3].repeat(26);
    rows.push(4);
    let text = [include_str!("three_outputs.txt"), "refused 13 0\n"].concat();
    for size in PIECES {
        let ended = PROGRAM.run(Some(&three_outputs()), &rows, Pieces::of(size));
        assert_eq!(String::from_utf8_lossy(&ended.lines), text);
        assert_eq!(ended.said, "");
    }
}
