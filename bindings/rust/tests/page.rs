//! Pages of records: their text, their lengths, and the refusals. No refused call
//! changes a lent byte.

use tracker::kinds::{AND, CONST, INPUT, NOT, OUT, REG};
use tracker::{encode, page, page_length, power_up, run, Net, Reason, Refusal};

/// 0 INPUT; 1 REG(4, start 0); 2 NOT 1; 3 NOT 0; 4 AND(2, 3); 5 OUT 1,
/// protected.
const COUNTER: [Net; 6] = [
    Net::new(INPUT, 0, 0, 0),
    Net::new(REG, 4, 0, 0),
    Net::new(NOT, 1, 0, 0),
    Net::new(NOT, 0, 0, 0),
    Net::new(AND, 2, 3, 0),
    Net::new(OUT, 1, 1, 0),
];

/// The pages of a record, as text. The buffer has the length that `page_length`
/// gives.
fn pages(nets: &[Net], k: usize, record: &[u8]) -> String {
    let outputs = nets.iter().filter(|net| net.kind == OUT).count();
    let mut text = vec![255; page_length(k, outputs)];
    assert_eq!(page(&encode(nets), k, record, &mut text), Ok(()));
    String::from_utf8(text).unwrap()
}

/// A line of 70 characters and a newline: columns 1 to 6 as they are given, and
/// what stands behind them, filled with blanks.
fn line(first: &str, rest: &str) -> String {
    let line = [first, rest, &" ".repeat(64 - rest.len()), "\n"].concat();
    assert_eq!(line.len(), 71);
    line
}

// The lengths by hand: lines of 71 bytes, one for the heading and one per output,
// on ceil(K / 64) pages.
#[test]
fn lengths() {
    assert_eq!(page_length(0, 0), 0);
    assert_eq!(page_length(0, 8_191), 0);
    assert_eq!(page_length(1, 0), 71);
    assert_eq!(page_length(1, 1), 142);
    assert_eq!(page_length(63, 2), 213);
    assert_eq!(page_length(64, 2), 213);
    assert_eq!(page_length(65, 2), 426);
    assert_eq!(page_length(128, 2), 426);
    assert_eq!(page_length(129, 2), 639);
    assert_eq!(page_length(4_096, 8_191), 64 * 8_192 * 71);
}

// The output bytes are 0, 3, 2 and 0: a 0, an untrusted 1, an untrusted 0, a 0.
#[test]
fn the_counter_of_the_specification() {
    let image = encode(&COUNTER);
    let (mut state, mut record) = ([255; 3], [255; 4]);
    power_up(&image, &mut state).unwrap();
    let _ = run(&image, 4, &mut state, &[2, 0, 1, 0], &mut record).unwrap();
    let expected = [line("cycle ", "0"), line("    5 ", "0hl0")].concat();
    assert_eq!(pages(&COUNTER, 4, &record), expected);
}

#[test]
fn each_byte_has_its_sign() {
    let nets = [Net::new(CONST, 0, 0, 0), Net::new(OUT, 0, 0, 0)];
    let expected = [line("cycle ", "0"), line("    1 ", "01lh")].concat();
    assert_eq!(pages(&nets, 4, &[0, 1, 2, 3]), expected);
}

// Two OUTs, nets 1 and 100. The first has 0 in each cycle and the second 3. The
// second page begins with cycle 64, the only one that is left.
#[test]
fn sixty_five_cycles() {
    let mut nets = vec![Net::new(CONST, 0, 0, 0); 101];
    nets[1] = Net::new(OUT, 0, 0, 0);
    nets[100] = Net::new(OUT, 0, 1, 0);
    let expected = [
        line("cycle ", "0"),
        line("    1 ", &"0".repeat(64)),
        line("  100 ", &"h".repeat(64)),
        line("cycle ", "64"),
        line("    1 ", "0"),
        line("  100 ", "h"),
    ];
    assert_eq!(pages(&nets, 65, &[0, 3].repeat(65)), expected.concat());
    // 64 cycles take the first page alone.
    let first = expected[..3].concat();
    assert_eq!(pages(&nets, 64, &[0, 3].repeat(64)), first);
}

// The last of 64 pages begins with cycle 63 × 64 = 4,032.
#[test]
fn the_longest_run_without_outputs_has_headings_alone() {
    let nets = [Net::new(CONST, 0, 0, 0)];
    let text = pages(&nets, 4_096, &[]);
    assert!(text.starts_with(&[line("cycle ", "0"), line("cycle ", "64")].concat()));
    assert!(text.ends_with(&line("cycle ", "4032")));
    assert_eq!(pages(&nets, 0, &[]), "");
}

/// The answer for a record of the counter and a page buffer of so many bytes. It
/// must change no byte.
fn refused(k: usize, record: &[u8], length: usize) -> Refusal {
    let mut text = vec![7; length];
    let answer = page(&encode(&COUNTER), k, record, &mut text);
    assert!(text.iter().all(|byte| *byte == 7));
    answer.unwrap_err()
}

// Each call has the fault that it turns back for and those behind it. With K = 2 the
// record has two bytes, and the page 142.
#[test]
fn refusals_come_in_their_order() {
    let at = |reason, place| Refusal { reason, place };
    let image = &encode(&COUNTER)[..49];
    let answer = page(image, 4_097, &[4], &mut [7]);
    assert_eq!(answer, Err(at(Reason::ImageLength, 0)));
    for k in [4_097, usize::MAX] {
        assert_eq!(refused(k, &[4], 1), at(Reason::TooManyCycles, 0));
    }
    assert_eq!(refused(2, &[3, 0, 1, 4, 255], 1), at(Reason::RowByte, 3));
    assert_eq!(refused(2, &[4], 1), at(Reason::RowByte, 0));
    assert_eq!(refused(2, &[3, 0, 1], 1), at(Reason::BufferLength, 0));
    assert_eq!(refused(2, &[3], 142), at(Reason::BufferLength, 0));
    for length in [0, 141, 143, 284] {
        assert_eq!(refused(2, &[3, 0], length), at(Reason::PageLength, 0));
    }
}

// K = 0 asks for an empty record and an empty page.
#[test]
fn no_cycles() {
    let at = |reason, place| Refusal { reason, place };
    assert_eq!(pages(&COUNTER, 0, &[]), "");
    assert_eq!(refused(0, &[4], 71), at(Reason::RowByte, 0));
    assert_eq!(refused(0, &[3], 71), at(Reason::BufferLength, 0));
    assert_eq!(refused(0, &[], 71), at(Reason::PageLength, 0));
}
