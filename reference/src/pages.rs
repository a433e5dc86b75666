//! The program `pages`: pages of 64 cycles, by request L6 of document 02, of the
//! rows that it reads as the listing program of document 01 does.

use std::io::{self, Read, Write};

use crate::answers::Refusal;
use crate::calls::{power_up, step};
use crate::check::check;
use crate::cycle::output_bytes;
use crate::listing::{print_refusal, read_row};
use crate::netlist::Netlist;
use crate::page::{page_text, PAGE_CYCLES};
use crate::state::state_length;

/// Prints the pages of an image with the rows that `input` holds.
///
/// A refused image prints its refusal alone, also when its I is 0. The errors
/// that this function gives are those of the two streams alone.
pub fn pages(image: &[u8], mut input: impl Read, mut output: impl Write) -> io::Result<()> {
    match check(image) {
        Err(refusal) => print_refusal(&mut output, refusal)?,
        Ok(netlist) => print_pages(image, &netlist, &mut input, &mut output)?,
    }
    output.flush()
}

/// Powers up, then reads the rows of one page after the other and prints it.
///
/// A refusal is the last line, behind the page of the rows before it. Otherwise
/// nothing stands behind the last page. With no rows there is no page, and with I
/// = 0 there are none, since the first row is empty. The number of cycles has no
/// limit here, since that of document 01 is for a run.
fn print_pages(
    image: &[u8],
    netlist: &Netlist,
    input: &mut impl Read,
    output: &mut impl Write,
) -> io::Result<()> {
    let mut state = vec![0; state_length(netlist.registers)];
    if let Err(refusal) = power_up(image, &mut state) {
        return print_refusal(output, refusal);
    }
    let mut first: u64 = 0;
    loop {
        let read = read_page(image, netlist, &mut state, input)?;
        if read.cycles > 0 {
            output.write_all(page_text(netlist, first, &read.record).as_bytes())?;
        }
        if let Some(refusal) = read.refusal {
            return print_refusal(output, refusal);
        }
        if read.cycles < PAGE_CYCLES {
            return Ok(());
        }
        first += PAGE_CYCLES as u64;
    }
}

/// The cycles of one page, with their output bytes, and the refusal that came
/// behind them, if there was one.
struct PageRead {
    cycles: usize,
    record: Vec<u8>,
    refusal: Option<Refusal>,
}

/// Makes one step for each row, until the page is full, the input ends or a step
/// turns back.
fn read_page(
    image: &[u8],
    netlist: &Netlist,
    state: &mut [u8],
    input: &mut impl Read,
) -> io::Result<PageRead> {
    let mut read = PageRead {
        cycles: 0,
        record: Vec::new(),
        refusal: None,
    };
    let mut nets = vec![0; netlist.nets.len()];
    while read.cycles < PAGE_CYCLES {
        let row = read_row(input, netlist.inputs)?;
        if row.is_empty() {
            break;
        }
        if let Err(refusal) = step(image, state, &row, &mut nets) {
            read.refusal = Some(refusal);
            break;
        }
        read.record.extend(output_bytes(netlist, &nets));
        read.cycles += 1;
    }
    Ok(read)
}
