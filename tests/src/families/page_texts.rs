//! Good netlists: a run, and the pages of its outputs, which are read back and then
//! compared with the reference's.

use crate::call::Call;
use crate::case::Case;
use crate::coding::number_of;
use crate::counts::Counts;
use crate::cycles::paged;
use crate::drawing;
use crate::failure::{Failure, Outcome};
use crate::netlists;
use crate::page_reading::{read_back, Shown};
use crate::states;
use tracker::encode;

pub fn run(case: &mut Case) -> Outcome {
    let nets = netlists::mostly_small(&mut case.random, 200);
    let (counts, image) = (Counts::of(&nets), encode(&nets));
    let k = match case.random.below(8) {
        0 => case.random.between(64, 200) % (1 + 200_000 / nets.len()),
        _ => paged(&mut case.random, counts.nets),
    };
    let record = outputs(case, &image, &counts, k)?;
    let buffer = case.random.bytes(counts.page_length(k));
    let mut page = Call::page(k, record, buffer);
    let answer = case.ask(&image, &mut page)?;
    if let Some(property) = wrong_pages(&counts, &page, answer) {
        return Err(case.broken(&image, &page, answer, property));
    }
    page.filled = case.random.bytes(page.filled.len());
    case.compare(&image, &mut page)?;
    Ok(())
}

/// The output bytes of a run from any state.
fn outputs(
    case: &mut Case,
    image: &[u8],
    counts: &Counts,
    k: usize,
) -> Result<Vec<u8>, Box<Failure>> {
    let state = states::draw(&mut case.random, counts.registers);
    let mut run = drawing::run(&mut case.random, counts, k, &state);
    let answer = case.ask(image, &mut run)?;
    if number_of(answer) != 0 {
        return Err(case.broken(image, &run, answer, "a good run is made"));
    }
    Ok(run.filled)
}

/// What does not hold of the pages of a run's outputs.
fn wrong_pages(counts: &Counts, page: &Call, answer: u64) -> Option<String> {
    if answer != 0 {
        return Some(String::from("the pages of a run's outputs are written"));
    }
    let expected = Shown {
        pages: (page.k + 63) / 64,
        nets: match page.k {
            0 => Vec::new(),
            _ => counts.outs.clone(),
        },
        record: page.rows.clone(),
    };
    match read_back(&page.filled, counts.outputs) {
        Err(text) => Some(format!("the pages can be read: {text}")),
        Ok(shown) if shown.nets != expected.nets => Some(format!(
            "the pages show the nets {:?}, not {:?}",
            expected.nets, shown.nets
        )),
        Ok(shown) if shown != expected => Some(String::from("the pages show the whole record")),
        Ok(_) => None,
    }
}
