//! The program of request L6 of document 02: net.bin in the current folder, rows
//! on standard input, pages on standard output.

#![forbid(unsafe_code)]

use std::io;

use reference::{pages, read_image_file};

fn main() -> io::Result<()> {
    let image = read_image_file("net.bin")?;
    pages(&image, io::stdin().lock(), io::stdout().lock())
}
