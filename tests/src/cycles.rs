//! Numbers of cycles: good ones, and those that a careless product or a
//! narrower type would take for good ones.

use crate::random::Random;
use tracker::MOST_CYCLES;

/// Numbers of cycles at the limits of a run and of machine words.
pub const NOTED: [usize; 12] = [
    0,
    1,
    4095,
    4096,
    4097,
    8192,
    65_535,
    65_536,
    1 << 32,
    1 << 63,
    usize::MAX - 1,
    usize::MAX,
];

/// Numbers of cycles with which a page is just full or not, and those at the limit.
pub const PAGED: [usize; 11] = [0, 1, 63, 64, 65, 127, 128, 129, 4095, 4096, 4097];

/// Records that are not to be long have at most so many bytes.
const LONG_RECORD: usize = 20_000;

/// A good number of cycles for pages of so many outputs: a few, some hundred, just
/// full pages or nearly so, or, where few outputs are shown, about 4,096.
pub fn paged(random: &mut Random, outputs: usize) -> usize {
    let k = match random.below(64) {
        0 => random.pick(&[4095, MOST_CYCLES]),
        1..=16 => random.pick(&PAGED[..8]),
        17..=24 => random.between(2, 300),
        _ => return few(random),
    };
    if k * outputs > LONG_RECORD {
        return few(random);
    }
    k
}

/// A number of cycles that is cheap to run, mostly a few.
pub fn few(random: &mut Random) -> usize {
    match random.below(16) {
        0 => 0,
        1 => random.between(10, 70),
        _ => random.between(1, 7),
    }
}

/// A number of cycles above 4,096 that becomes `k` when its high bits are lost.
pub fn with_high_bits(random: &mut Random, k: usize) -> usize {
    let high = random.pick(&[16, 16, 17, 31, 32, 33, 48, 62, 63]);
    k | (1 << high)
}

/// A number of cycles above 4,096 whose product with `count`, which is not 0,
/// wraps around 2^64 to a small number wherever there is one.
pub fn wrapping(random: &mut Random, count: usize) -> usize {
    let twos = count.trailing_zeros();
    let odd = count >> twos;
    let small = random.between(1, 40);
    let k = small.wrapping_mul(inverse(odd)) << twos >> twos;
    if k > MOST_CYCLES {
        return k;
    }
    // Here k times count is small as it stands, and k + 2^(64 - twos) times
    // count is the same number after the wrap. For an odd count that would be
    // k + 2^64, so another large number is taken.
    match twos {
        0 => k | (1 << 63),
        _ => k | (1 << (64 - twos)),
    }
}

/// The number whose product with an odd number is 1 modulo 2^64.
fn inverse(odd: usize) -> usize {
    let mut inverse = odd;
    for _ in 0..6 {
        let error = odd.wrapping_mul(inverse);
        inverse = inverse.wrapping_mul(2usize.wrapping_sub(error));
    }
    inverse
}
