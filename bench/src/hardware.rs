//! The mode `netlist`: what `hardware/compare` gives to the hardware tools.
//!
//! It writes a random netlist as Verilog and as an image, its doubled netlist as
//! Verilog, its rows, and the outputs that the library gives. Vectors are lines of
//! hexadecimal digits, a line a cycle: the marks, and below them the values.

use std::fs;
use std::io;
use std::path::Path;

use crate::accepted::accepted;
use crate::cases::Bytes;
use crate::doubled::write_doubled;
use crate::generate::image;
use crate::mix::Mix;
use crate::peers::PEERS;
use crate::pins::{inverted_pins, net_of, pins};
use crate::state::count_marked;
use crate::verilog::{net, top, MarksAs, MuxAs};
use tracker::kinds::{OUT, REG};
use tracker::{Image, Net};

/// Writes the files of one netlist into a folder.
pub fn write_files(mix: Mix, nets: usize, seed: u64, k: usize, folder: &Path) -> io::Result<()> {
    let bytes = Bytes::with_image(image(mix, nets, seed, true), k, seed + 1);
    let mut state = bytes.start.clone();
    let mut outputs = bytes.outputs(k);
    let answer = bytes.run(PEERS[0], k, &mut state, &mut outputs);
    assert!(answer >> 32 == 0, "the library turned the run back");
    let z = bytes.sizes;
    let image = accepted(&bytes.image);
    fs::write(folder.join("net.v"), net(image, MuxAs::Gates))?;
    fs::write(folder.join("net-mux.v"), net(image, MuxAs::Cell))?;
    fs::write(folder.join("top.v"), top(z, MarksAs::Names))?;
    fs::write(folder.join("image.bin"), &bytes.image)?;
    fs::write(folder.join("rows.bin"), &bytes.rows)?;
    fs::write(folder.join("rows.hex"), vectors(&bytes.rows, z.inputs, k))?;
    fs::write(folder.join("outputs.hex"), vectors(&outputs, z.outputs, k))?;
    fs::write(folder.join("sizes.vh"), sizes(&bytes, k))?;
    write_doubled(&bytes, folder)?;
    print_about(image, &outputs);
    Ok(())
}

/// Prints what is to be known of a netlist and its outputs.
fn print_about(image: Image, outputs: &[u8]) {
    let starts = starts(image);
    let (unknown, marked) = (count_marked(&starts), count_marked(outputs));
    print!("{} nets needed by an OUT or REG, ", needed(image));
    print!("{unknown} of {} REGs without a start, ", starts.len());
    let inverted = inverted_by_kind(image);
    if inverted != [0; 7] {
        let counts = inverted.map(|count| count.to_string()).join(" ");
        print!("inverted pins of kinds 2 to 8: {counts}, ");
    }
    println!("{marked} of {} output bytes marked", outputs.len());
}

/// How many pins are inverted, for each of the kinds 2 to 8.
fn inverted_by_kind(image: Image) -> [usize; 7] {
    let mut counts = [0; 7];
    for net in image.nets().filter(|net| net.kind >= REG) {
        counts[usize::from(net.kind - REG)] += inverted_pins(&net);
    }
    counts
}

/// The widths of the ports, and the marks and values of the registers at power-up.
pub fn sizes(bytes: &Bytes, k: usize) -> String {
    let z = bytes.sizes;
    let registers = z.registers.max(1);
    let start = vector(&starts(accepted(&bytes.image)));
    let mut text = format!("`define I {}\n", z.inputs.max(1));
    text += &format!("`define R {registers}\n");
    text += &format!("`define O {}\n", z.outputs.max(1));
    text += &format!("`define K {}\n", k.max(1));
    text + &format!("`define START {}'h{start}\n", 2 * registers)
}

/// The byte of each register at power-up, worked out from the image, so that the
/// tools do not take the library's word for it.
fn starts(image: Image) -> Vec<u8> {
    let registers = image.nets().filter(|net| net.kind == REG);
    registers.map(|net| start_byte(net.operands[1])).collect()
}

/// The byte of a register at power-up. A start of 0 or 1 is its value, and its mark
/// is 0. A start of 2 says that none is given: the value is 0 and the mark 1.
fn start_byte(start: u16) -> u8 {
    let (value, mark) = (start == 1, start == 2);
    u8::from(value) + 2 * u8::from(mark)
}

/// A line for each of k cycles of `width` bytes.
fn vectors(bytes: &[u8], width: usize, k: usize) -> String {
    let mut text = String::new();
    for cycle in 0..k {
        text += &vector(&bytes[cycle * width..][..width]);
        text.push('\n');
    }
    text
}

/// The marks and then the values, the last byte's first. A vector of no bytes
/// counts as one byte 0.
fn vector(bytes: &[u8]) -> String {
    let bytes = if bytes.is_empty() { &[0] } else { bytes };
    let values = bytes.iter().map(|byte| byte & 1);
    let bits: Vec<u8> = values.chain(bytes.iter().map(|byte| byte >> 1)).collect();
    let digit = |four: &[u8]| four.iter().rev().fold(0, |digit, bit| digit * 2 + bit);
    let digits = bits
        .chunks(4)
        .rev()
        .map(|four| format!("{:x}", digit(four)));
    digits.collect()
}

/// How many nets an OUT or a REG's pin depends on within a cycle. Compilers leave
/// out the others.
pub fn needed(image: Image) -> usize {
    let nets: Vec<Net> = image.nets().collect();
    let mut needed = vec![false; nets.len()];
    for net in nets.iter().filter(|net| net.kind == REG) {
        needed[net_of(net.operands[0])] = true;
    }
    for (i, net) in nets.iter().enumerate().rev() {
        needed[i] |= net.kind == OUT;
        if needed[i] && net.kind != REG {
            for pin in pins(net) {
                needed[net_of(*pin)] = true;
            }
        }
    }
    needed.iter().filter(|net| **net).count()
}
