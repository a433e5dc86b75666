//! Pages for the folder: request L6 of document 02.
//!
//! A page shows up to 64 cycles of a record. Its first line is the heading, and
//! then each OUT has a line of its own, in output order.

use crate::answers::Refusal;
use crate::calls::is_above_3;
use crate::check::check;
use crate::lent::{check_buffer_length, check_bytes, check_cycles, check_page_length};
use crate::netlist::{Net, Netlist};

/// The number of cycles of a page. The last page may have fewer.
pub(crate) const PAGE_CYCLES: usize = 64;

/// A line has 70 characters and a newline.
const LINE: usize = 71;

/// Writes the pages of a record, which is the k * O output bytes of a run, cycle
/// after cycle and each cycle in output order. It meets 1 to 8 first and then 9,
/// 13, 14 and 19, also with k = 0. Nothing is written before all of these are
/// tried, so a call that turns back changes no byte.
pub fn page(image: &[u8], k: usize, record: &[u8], page: &mut [u8]) -> Result<(), Refusal> {
    let netlist = check(image)?;
    check_cycles(k)?;
    check_bytes(record, is_above_3, 13)?;
    check_buffer_length(record, k * netlist.outputs)?;
    check_page_length(page, pages_length(k, netlist.outputs))?;
    page.copy_from_slice(pages_text(&netlist, k, record).as_bytes());
    Ok(())
}

/// The bytes of all pages of k cycles: a page for each 64 cycles and for those
/// that are left, each with a heading and a line for each output.
fn pages_length(k: usize, outputs: usize) -> usize {
    let mut pages = k / PAGE_CYCLES;
    if k % PAGE_CYCLES != 0 {
        pages += 1;
    }
    pages * (1 + outputs) * LINE
}

/// The text of all pages of k cycles, page after page. With k = 0 it is empty.
fn pages_text(netlist: &Netlist, k: usize, record: &[u8]) -> String {
    let mut text = String::new();
    let mut first = 0;
    while first < k {
        let end = k.min(first + PAGE_CYCLES);
        let part = &record[first * netlist.outputs..end * netlist.outputs];
        text.push_str(&page_text(netlist, first as u64, part));
        first = end;
    }
    text
}

/// The text of the page that begins with cycle `first`. `part` is the record of
/// the page's cycles alone. Without any OUT the page is its heading.
pub(crate) fn page_text(netlist: &Netlist, first: u64, part: &[u8]) -> String {
    let mut text = line("cycle", &first.to_string());
    let mut output = 0;
    for (number, net) in netlist.nets.iter().enumerate() {
        if let Net::Out(_, _) = net {
            let signs = signs(part, netlist.outputs, output);
            text.push_str(&line(&number.to_string(), &signs));
            output += 1;
        }
    }
    text
}

/// The signs of one output, one for each cycle of a page.
fn signs(part: &[u8], outputs: usize, output: usize) -> String {
    let mut signs = String::new();
    for cycle in part.chunks(outputs) {
        signs.push(sign(cycle[output]));
    }
    signs
}

/// The sign of a byte 0 to 3: 0 and 1, or l and h for untrusted 0 and 1.
fn sign(byte: u8) -> char {
    match byte {
        0 => '0',
        1 => '1',
        2 => 'l',
        _ => 'h',
    }
}

/// A line: the word or the net number set right in columns 1 to 5, a blank, and
/// the rest set left in the other 64 columns.
fn line(word: &str, rest: &str) -> String {
    format!("{word:>5} {rest:<64}\n")
}
