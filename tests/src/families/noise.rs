//! Images without a plan: good ones with some bytes changed, cut or added, and
//! random bytes.

use crate::call::Call;
use crate::case::Case;
use crate::counts::Counts;
use crate::drawing;
use crate::failure::Outcome;
use crate::netlists;
use crate::random::Random;
use crate::states;
use tracker::kinds::INVERTED;
use tracker::{encode, encode_with, Net, Sizes};

pub fn run(case: &mut Case) -> Outcome {
    let nets = netlists::small(&mut case.random);
    let good = encode(&nets);
    let image = match case.random.below(6) {
        0 => flipped(&mut case.random, &good),
        1 => cut(&mut case.random, &good),
        2 => extended(&mut case.random, &good),
        3 => {
            let length = case.random.between(0, 64);
            case.random.bytes(length)
        }
        _ => likely(&mut case.random),
    };
    case.compare(&image, &mut Call::check())?;
    case.compare_figures(&image)?;
    let counts = Counts::of(&nets);
    let state = states::draw(&mut case.random, counts.registers);
    let mut other = drawing::any(&mut case.random, &counts, &state);
    case.compare(&image, &mut other)?;
    Ok(())
}

/// Some bytes changed: a bit of them, or all of it.
fn flipped(random: &mut Random, good: &[u8]) -> Vec<u8> {
    let mut image = good.to_vec();
    for _ in 0..random.pick(&[1, 1, 1, 2, 3, 8]) {
        let index = random.below(image.len());
        image[index] = match random.below(3) {
            0 => image[index] ^ (1 << random.below(8)),
            1 => random.byte(),
            _ => random.below(9) as u8,
        };
    }
    image
}

fn cut(random: &mut Random, good: &[u8]) -> Vec<u8> {
    good[..random.below(good.len())].to_vec()
}

fn extended(random: &mut Random, good: &[u8]) -> Vec<u8> {
    let length = random.between(1, 100);
    let more = random.bytes(length);
    [good, &more].concat()
}

/// Random numbers, small enough that many pass for kinds, operands and sizes, in
/// an image of the right length for a small N.
fn likely(random: &mut Random) -> Vec<u8> {
    let size = random.between(1, 4);
    let [inputs, registers, outputs] = [(); 3].map(|()| random.below(2));
    let sizes = Sizes {
        nets: size,
        inputs,
        registers,
        outputs,
    };
    let kinds: Vec<u8> = (0..size).map(|_| likely_kind(random)).collect();
    let nets = kinds.into_iter().map(|kind| Net {
        kind,
        operands: [(); 3].map(|()| likely_operand(random)),
    });
    encode_with(sizes, &nets.collect::<Vec<Net>>())
}

fn likely_kind(random: &mut Random) -> u8 {
    random.pick(&[0, 1, 2, 3, 4, 5, 6, 7, 8, 1, 2, 8, 9])
}

fn likely_operand(random: &mut Random) -> u16 {
    let low = random.pick(&[0, 0, 0, 0, 1, 1, 2, 3]);
    let high = 256 * u16::from(random.chance(1, 60));
    let top = INVERTED * u16::from(random.chance(1, 12));
    low + high + top
}
