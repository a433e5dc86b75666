//! Peer "plain": what one writes first, in safe Rust: each line is formatted.

use std::io::{Result, Write};

use super::layout::{outs, CYCLES, SIGNS};
use super::Lent;
use tracker::Sizes;

/// The pages of an accepted call.
pub fn write(lent: Lent, z: Sizes) {
    write_pages(lent, z).expect("room for all pages");
}

fn write_pages(lent: Lent, z: Sizes) -> Result<()> {
    let outs = outs(lent.image);
    let mut page = lent.page;
    for first in (0..lent.k).step_by(CYCLES) {
        let last = lent.k.min(first + CYCLES);
        writeln!(page, "cycle {first:<CYCLES$}")?;
        for (j, net) in outs.iter().enumerate() {
            let byte = |cycle: usize| lent.record[cycle * z.outputs + j];
            let sign = |cycle: usize| char::from(SIGNS[usize::from(byte(cycle))]);
            let signs: String = (first..last).map(sign).collect();
            writeln!(page, "{net:>5} {signs:<CYCLES$}")?;
        }
    }
    Ok(())
}
