//! The listing program of document 01: net.bin in the current folder, rows on
//! standard input, lines on standard output.

#![forbid(unsafe_code)]

use std::io;

use reference::{listing, read_image_file};

fn main() -> io::Result<()> {
    let image = read_image_file("net.bin")?;
    listing(&image, io::stdin().lock(), io::stdout().lock())
}
