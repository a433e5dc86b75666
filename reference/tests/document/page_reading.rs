//! Pages read back: from the text of the pages alone come the number of cycles,
//! the nets of the OUTs and the record, by a reader that is written apart from the
//! writer. The netlists and the records are random.

use crate::images::{INPUT, OUT};
use crate::page_examples::written;
use crate::random::Numbers;
use crate::samples::{samples, Sample};
use reference::pages;

/// What a page says: its first cycle, the nets of its lines, and the bytes of each
/// line.
struct PageRead {
    first: usize,
    nets: Vec<usize>,
    bytes: Vec<Vec<u8>>,
}

/// The text of columns `from` to `to`, counted from 1, with no blank before or
/// behind it.
fn columns(line: &str, from: usize, to: usize) -> &str {
    line[from - 1..to].trim()
}

/// The byte of a sign.
fn byte(sign: char) -> u8 {
    let place = "01lh".find(sign);
    place.unwrap_or_else(|| panic!("no sign: {sign}")) as u8
}

/// Reads a text as pages. Each heading begins one.
fn read(text: &str) -> Vec<PageRead> {
    let mut pages: Vec<PageRead> = Vec::new();
    for line in text.split_terminator('\n') {
        assert_eq!((line.len(), columns(line, 6, 6)), (70, ""));
        let (word, rest) = (columns(line, 1, 5), columns(line, 7, 70));
        assert!(line[..5].ends_with(word) && line[6..].starts_with(rest));
        if word == "cycle" {
            let first = rest.parse().unwrap();
            pages.push(PageRead {
                first,
                nets: Vec::new(),
                bytes: Vec::new(),
            });
        } else {
            let page = pages.last_mut().unwrap();
            page.nets.push(word.parse().unwrap());
            page.bytes.push(rest.chars().map(byte).collect());
        }
    }
    pages
}

/// The record of pages: cycle after cycle, each in output order.
fn record(pages: &[PageRead]) -> Vec<u8> {
    let mut record = Vec::new();
    for page in pages {
        let cycles = page.bytes.first().map_or(0, Vec::len);
        for cycle in 0..cycles {
            record.extend(page.bytes.iter().map(|bytes| bytes[cycle]));
        }
    }
    record
}

/// The nets of kind OUT. The kind bytes start at byte 8.
fn out_nets(source: &Sample) -> Vec<usize> {
    let is_out = |number: &usize| source.image[8 + *number] == OUT;
    (0..source.n).filter(is_out).collect()
}

/// The number of pages of k cycles: 1 to 64 cycles have one, 65 to 128 two.
fn count(k: usize) -> usize {
    (k + 63) / 64
}

// Every page has its first cycle, a line for each OUT under the OUT's own number,
// and as many signs as it has cycles. The record that is read is the record that
// was written.
#[test]
fn the_record_is_read_back() {
    let mut numbers = Numbers(61);
    for source in samples(&mut numbers) {
        let k = numbers.below(200);
        let given = numbers.bytes(k * source.outputs);
        let lines = count(k) * (1 + source.outputs);
        let pages = read(&written(&source.image, k, &given, lines));
        assert_eq!(pages.len(), count(k));
        for (number, page) in pages.iter().enumerate() {
            assert_eq!(page.first, 64 * number);
            assert_eq!(page.nets, out_nets(&source));
            let cycles = (k - 64 * number).min(64);
            assert!(page.bytes.iter().all(|bytes| bytes.len() == cycles));
        }
        assert_eq!(record(&pages), given);
    }
}

// For one netlist with two OUTs every K from 0 to 200 is tried.
#[test]
fn the_record_is_read_back_for_every_k() {
    let mut numbers = Numbers(62);
    let sources = samples(&mut numbers);
    let source = sources.iter().find(|source| source.outputs == 2).unwrap();
    for k in 0..=200 {
        let given = numbers.bytes(2 * k);
        let pages = read(&written(&source.image, k, &given, 3 * count(k)));
        assert_eq!((pages.len(), record(&pages)), (count(k), given));
    }
}

// The program prints the pages of the run from power-up with the same rows, whose
// record is read back from them.
#[test]
fn the_program_prints_the_pages_of_the_run() {
    let mut numbers = Numbers(63);
    for source in samples(&mut numbers) {
        if source.inputs == 0 {
            continue;
        }
        let k = numbers.below(200);
        let rows = numbers.bytes(k * source.inputs);
        let (_, outputs, _) = source.run(&source.power_up(), k, &rows);
        let mut printed = Vec::new();
        pages(&source.image, &rows[..], &mut printed).unwrap();
        let text = String::from_utf8(printed).unwrap();
        let lines = count(k) * (1 + source.outputs);
        assert_eq!(text, written(&source.image, k, &outputs, lines));
        assert_eq!(record(&read(&text)), outputs);
    }
}

// The netlists of these tests have 0 to 5 OUTs and more, with numbers of one and
// two digits, and some of them have no INPUT.
#[test]
fn the_samples_have_all_that_pages_look_at() {
    let sources = samples(&mut Numbers(61));
    for outputs in 0..=5 {
        assert!(sources.iter().any(|source| source.outputs == outputs));
    }
    let nets: Vec<usize> = sources.iter().flat_map(out_nets).collect();
    assert!(nets.iter().any(|net| *net < 10) && nets.iter().any(|net| *net > 9));
    let kinds = |source: &Sample| source.image[8..8 + source.n].contains(&INPUT);
    assert!(!sources.iter().all(kinds) && sources.iter().any(kinds));
}
