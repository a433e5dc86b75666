//! The doubled netlist as Verilog. Marks are values in it, so that no pass has to
//! add them.

use std::fs;
use std::io;
use std::path::Path;

use crate::accepted::accepted;
use crate::cases::Bytes;
use crate::verilog::{net, top, MarksAs, MuxAs};
use tracker::{double, doubled_size};

/// Writes the doubled netlist into a folder, unless it would be too large.
pub fn write_doubled(bytes: &Bytes, folder: &Path) -> io::Result<()> {
    let Ok(size) = doubled_size(&bytes.image) else {
        return Ok(());
    };
    let mut doubled = vec![0; size.bytes];
    double(&bytes.image, &mut doubled).expect("a netlist that can be doubled");
    let text = net(accepted(&doubled), MuxAs::Cell);
    fs::write(folder.join("doubled.v"), text)?;
    let text = top(bytes.sizes, MarksAs::Numbers);
    fs::write(folder.join("doubled-top.v"), text)
}
