//! The doubled netlist that the library writes, its rows and its states.

use crate::call::Call;
use crate::case::Case;
use crate::counts::Counts;
use crate::failure::Failure;
use crate::figures::{are_written, asked};
use crate::states;
use tracker::kinds::OUT;
use tracker::{Image, Net};

/// The doubled image and its counts.
pub struct Doubled {
    pub image: Vec<u8>,
    pub counts: Counts,
}

/// Has the library double a good image that does not draw 15, into a buffer of
/// the length that it gives. It must write an image that has the figures that it
/// gave, that it accepts, and with twice as many inputs, registers and outputs.
pub fn double(case: &mut Case, image: &[u8], counts: &Counts) -> Result<Doubled, Box<Failure>> {
    let size = asked(case, image)?;
    let mut double = Call::double(case.random.bytes(size.bytes));
    let answer = case.ask(image, &mut double)?;
    if answer != 0 {
        return Err(case.broken(image, &double, answer, "a good image is doubled"));
    }
    are_written(case, image, Some(size), &double)?;
    let checked = case.ask(&double.filled, &mut Call::check())?;
    let nets = match nets_of(&double.filled) {
        Some(nets) if checked == 0 => nets,
        _ => return Err(case.broken(image, &double, answer, "a doubled image is accepted")),
    };
    let twice = Counts::of(&nets);
    let are = [twice.inputs, twice.registers, twice.outputs];
    let expected = [counts.inputs, counts.registers, counts.outputs].map(|count| 2 * count);
    if are != expected {
        let property = "a doubled netlist has two inputs, registers and outputs for one";
        return Err(case.broken(image, &double, answer, property));
    }
    Ok(Doubled {
        image: double.filled,
        counts: twice,
    })
}

/// The nets of an image of the right length, if all its kinds are kinds.
pub fn nets_of(image: &[u8]) -> Option<Vec<Net>> {
    let nets: Vec<Net> = Image::of(image)?.nets().collect();
    nets.iter().all(|net| net.kind <= OUT).then_some(nets)
}

/// A row for the doubled netlist: each byte v + 2 x t becomes v and t.
pub fn split(bytes: &[u8]) -> Vec<u8> {
    bytes.iter().flat_map(|byte| [byte % 2, byte / 2]).collect()
}

/// The state of the doubled netlist for these register bytes of the source, which become
/// v and t too. It has a count of its own, of bytes that are not marked.
pub fn doubled_state(registers: &[u8]) -> Vec<u8> {
    states::of(&split(registers))
}

/// The bytes v + 2 x t of bytes of the doubled netlist, two for one, whose plain
/// values are v and t. Their own marks do not count.
pub fn joined(bytes: &[u8]) -> Vec<u8> {
    let pairs = bytes.chunks(2);
    pairs.map(|pair| joined_byte(pair[0], pair[1])).collect()
}

/// The byte v + 2 x t of two bytes whose plain values are v and t.
pub fn joined_byte(value: u8, mark: u8) -> u8 {
    value % 2 + 2 * (mark % 2)
}
