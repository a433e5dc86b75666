//! The figures of the doubled netlist, and doubling with buffers of right and
//! wrong lengths, on netlists of all sizes and above all on those whose doubled
//! netlist has about 8,192 nets. What is written is stepped, run and doubled
//! again.

use super::good;
use crate::bytes::wrong_length;
use crate::call::Call;
use crate::case::Case;
use crate::counts::Counts;
use crate::doubled::nets_of;
use crate::failure::Outcome;
use crate::figures::are_written;
use crate::netlists;
use tracker::kinds::{AND, CONST, INPUT, INVERTED, OR, XOR};
use tracker::{encode, image_length, Net, MOST_NETS};

pub fn run(case: &mut Case) -> Outcome {
    let nets = netlist(case);
    let counts = Counts::of(&nets);
    let image = encode(&nets);
    let size = case.compare_figures(&image)?;
    let wrong = wrong_length(&mut case.random, counts.doubled_length());
    let telling = case.random.pick(&[
        0,
        8,
        image.len(),
        image_length(MOST_NETS),
        counts.doubled_length() - 1,
        counts.doubled_length() + 1,
    ]);
    for length in [wrong, telling, counts.doubled_length()] {
        let mut double = Call::double(case.random.bytes(length));
        let answer = case.compare(&image, &mut double)?;
        if answer != by_size(&counts, length) {
            let property = "15, 16 or done follows from the doubled size and the length";
            return Err(case.broken(&image, &double, answer, property));
        }
        if answer == 0 {
            are_written(case, &image, size, &double)?;
            let nets = nets_of(&double.filled).expect("an image that equals the reference's");
            good::calls(case, &nets, 3)?;
        }
    }
    Ok(())
}

/// The answer that doubling a good image has to give for a buffer's length.
fn by_size(counts: &Counts, length: usize) -> u64 {
    match counts.doubled_length() {
        _ if !counts.doubles() => 15 << 32,
        right if right != length => 16 << 32,
        _ => 0,
    }
}

/// The netlist of a case. The first seeds are the limits that document 01 names
/// and the largest doubled netlist of all, and the first limit once more with
/// inverted pins.
fn netlist(case: &mut Case) -> Vec<Net> {
    let ors = |count| vec![Net::new(OR, 0, 0, 0); count];
    let inverted = |kind, count| vec![Net::new(kind, INVERTED, INVERTED, 0); count];
    let constant = vec![Net::new(CONST, 1, 0, 0)];
    match case.seed {
        0 => [constant, ors(1023), vec![Net::new(AND, 0, 0, 0)]].concat(),
        1 => [constant, ors(1024)].concat(),
        2 => vec![Net::new(INPUT, 0, 0, 0); MOST_NETS / 2],
        3 => vec![Net::new(INPUT, 0, 0, 0); MOST_NETS / 2 + 1],
        4 => [constant, ors(MOST_NETS - 1)].concat(),
        5 => [constant, vec![Net::new(XOR, 0, 0, 0); MOST_NETS - 1]].concat(),
        6 => [constant, inverted(OR, 1023), inverted(AND, 1)].concat(),
        _ if case.random.chance(1, 10) => {
            let doubled = case.random.between(MOST_NETS - 4, MOST_NETS + 4);
            netlists::of_doubled_size(&mut case.random, doubled)
        }
        _ if case.random.chance(1, 10) => netlists::large(&mut case.random),
        _ => netlists::small(&mut case.random),
    }
}
