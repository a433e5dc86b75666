//! The mode `listing`: what `hardware/listings` gives to the listing program and to
//! the hardware tools.
//!
//! It writes a random netlist as an image and as Verilog, rows, and for the
//! tools what the image says of the OUTs: which are protected, and their nets.

use std::fs;
use std::io;
use std::path::Path;

use crate::accepted::accepted;
use crate::cases::Bytes;
use crate::generate::image;
use crate::hardware::{needed, sizes};
use crate::mix::Mix;
use crate::verilog::{net, top, MarksAs, MuxAs};
use tracker::kinds::OUT;
use tracker::{Image, Net};

/// Writes the files of one netlist into a folder.
pub fn write_files(mix: Mix, nets: usize, seed: u64, rows: usize, folder: &Path) -> io::Result<()> {
    let bytes = Bytes::with_image(image(mix, nets, seed, true), rows, seed + 1);
    let image = accepted(&bytes.image);
    let defines = sizes(&bytes, rows) + &protected(image);
    fs::write(folder.join("net.bin"), &bytes.image)?;
    fs::write(folder.join("rows.bin"), &bytes.rows)?;
    fs::write(folder.join("net.v"), net(image, MuxAs::Gates))?;
    fs::write(folder.join("top.v"), top(bytes.sizes, MarksAs::Names))?;
    fs::write(folder.join("sizes.vh"), defines)?;
    fs::write(folder.join("outs.hex"), out_nets(image))?;
    let z = bytes.sizes;
    print!("{} inputs, {} registers, ", z.inputs, z.registers);
    println!("{} outputs, {} nets needed", z.outputs, needed(image));
    Ok(())
}

/// The OUTs of an image with their nets, in net order.
fn outs(image: Image<'_>) -> impl DoubleEndedIterator<Item = (usize, Net)> + '_ {
    let nets = image.nets().enumerate();
    nets.filter(|(_, net)| net.kind == OUT)
}

/// A vector that has a 1 for each protected OUT.
fn protected(image: Image) -> String {
    let bits: String = outs(image)
        .rev()
        .map(|(_, net)| net.operands[1].to_string())
        .collect();
    format!("`define PROTECTED {}'b0{bits}\n", bits.len() + 1)
}

/// The net of each OUT, a line each.
fn out_nets(image: Image) -> String {
    let lines = outs(image).map(|(i, _)| format!("{i:x}\n"));
    lines.collect::<Vec<String>>().concat()
}
