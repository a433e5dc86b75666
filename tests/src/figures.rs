//! The figures of the doubled netlist, held against what doubling writes.

use crate::call::Call;
use crate::case::Case;
use crate::counts::Counts;
use crate::drawing;
use crate::failure::{Failure, Outcome};
use reference::DoubledSize;
use tracker::{image_length, Image, MOST_NETS};

/// Compares the figures of a good netlist with the reference's, and then a
/// doubling. What it writes must have these figures.
pub fn compare_doubling(case: &mut Case, image: &[u8], counts: &Counts) -> Outcome {
    let size = case.compare_figures(image)?;
    let mut double = drawing::double(&mut case.random, counts);
    if case.compare(image, &mut double)? == 0 {
        are_written(case, image, size, &double)?;
    }
    Ok(())
}

/// The figures that the library gives of a good image that does not draw 15.
pub fn asked(case: &mut Case, image: &[u8]) -> Result<DoubledSize, Box<Failure>> {
    let mut call = Call::doubled_size();
    let nets = case.ask(image, &mut call)?;
    if nets > MOST_NETS as u64 {
        let property = "a good image has a doubled size";
        return Err(case.broken(image, &call, nets, property));
    }
    let mut kinds = [0; 9];
    for (kind, count) in kinds.iter_mut().enumerate() {
        *count = case.ask(image, &mut Call::doubled_kind(kind))? as usize;
    }
    Ok(DoubledSize {
        nets: nets as usize,
        bytes: image_length(nets as usize),
        kinds,
    })
}

/// Asks that the image that an accepted doubling wrote has these figures.
pub fn are_written(case: &Case, image: &[u8], size: Option<DoubledSize>, double: &Call) -> Outcome {
    if size != counted(&double.filled) {
        let property = format!("the doubled image has the figures that were given, {size:?}");
        return Err(case.broken(image, double, 0, property));
    }
    Ok(())
}

/// The figures of an image, counted in its bytes, or none where it has a wrong
/// length or a kind above 8.
fn counted(bytes: &[u8]) -> Option<DoubledSize> {
    let image = Image::of(bytes)?;
    let mut kinds = [0; 9];
    for kind in image.kinds() {
        *kinds.get_mut(usize::from(*kind))? += 1;
    }
    Some(DoubledSize {
        nets: image.sizes().nets,
        bytes: bytes.len(),
        kinds,
    })
}
