//! The listing program of document 01, on an image and two streams.

use std::io::{self, Read, Write};

use crate::answers::{Refusal, Verdict};
use crate::calls::{power_up, step};
use crate::check::check;
use crate::cycle::output_bytes;
use crate::netlist::Netlist;
use crate::state::state_length;

/// Prints the listing of an image with the rows that `input` holds.
///
/// A refused image prints its refusal, also when its I is 0. The errors that
/// this function gives are those of the two streams alone.
pub fn listing(image: &[u8], mut input: impl Read, mut output: impl Write) -> io::Result<()> {
    match check(image) {
        Err(refusal) => print_refusal(&mut output, refusal)?,
        Ok(netlist) => list_cycles(image, &netlist, &mut input, &mut output)?,
    }
    output.flush()
}

/// Powers up, then makes one step for each row of I bytes and prints its line.
///
/// With I = 0 the first row is empty, so nothing is read and `end 0` alone is
/// printed. A refusal is the last line: the earlier lines stay and no `end`
/// line follows. The number of cycles has no limit here, since that of document
/// 01 is for a run.
fn list_cycles(
    image: &[u8],
    netlist: &Netlist,
    input: &mut impl Read,
    output: &mut impl Write,
) -> io::Result<()> {
    let mut state = vec![0; state_length(netlist.registers)];
    let mut nets = vec![0; netlist.nets.len()];
    if let Err(refusal) = power_up(image, &mut state) {
        return print_refusal(output, refusal);
    }
    let mut cycle: u64 = 0;
    loop {
        let row = read_row(input, netlist.inputs)?;
        if row.is_empty() {
            break;
        }
        match step(image, &mut state, &row, &mut nets) {
            Err(refusal) => return print_refusal(output, refusal),
            Ok(verdict) => print_cycle(output, cycle, &output_bytes(netlist, &nets), verdict)?,
        }
        cycle += 1;
    }
    writeln!(output, "end {cycle}")
}

/// Reads the next row of `length` bytes. Reading goes on until the row is full
/// or the input ends, so a short read is not the end of input. A row is empty
/// at the end of input, and the last row may be short; the step then draws 12,
/// even if one of the row's bytes is bad.
pub(crate) fn read_row(input: &mut impl Read, length: usize) -> io::Result<Vec<u8>> {
    let mut row = vec![0; length];
    let mut filled = 0;
    while filled < length {
        match input.read(&mut row[filled..]) {
            Ok(0) => break,
            Ok(count) => filled += count,
            Err(error) if error.kind() == io::ErrorKind::Interrupted => {}
            Err(error) => return Err(error),
        }
    }
    row.truncate(filled);
    Ok(row)
}

/// Prints the line of one cycle: the cycle, the O digits without a space among
/// them or `-` if O is 0, and the verdict.
fn print_cycle(
    output: &mut impl Write,
    cycle: u64,
    bytes: &[u8],
    verdict: Verdict,
) -> io::Result<()> {
    let mut digits = String::new();
    for byte in bytes {
        digits.push_str(&byte.to_string());
    }
    if bytes.is_empty() {
        digits.push('-');
    }
    match verdict {
        Verdict::Clear => writeln!(output, "{cycle} {digits} clear"),
        Verdict::Flow(net) => writeln!(output, "{cycle} {digits} flow {net}"),
    }
}

/// Prints the line of a refusal.
pub(crate) fn print_refusal(output: &mut impl Write, refusal: Refusal) -> io::Result<()> {
    writeln!(output, "refused {} {}", refusal.number, refusal.place)
}
