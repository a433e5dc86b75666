//! Faults of an image, one function for each of the refusals 1 to 8.
//!
//! Each puts in what its refusal is for. Where several faults meet, or where a
//! fault has side effects, the reference says which refusal comes first.

use crate::listed::{limit_of, listed_of, net_of, pins_of, setting_of};
use crate::random::Random;
use tracker::kinds::{AND, CONST, INPUT, INVERTED, MUX, NOT, OR, OUT, REG, XOR};
use tracker::{encode_with, image_length, Net, Sizes, MOST_NETS};

/// A fault: the refusal that it is for, and the net where it is put. The net is
/// of no account for 1, 2, 3 and 8. With the number 0 there is no fault, but a pin
/// that is only just good.
#[derive(Clone, Copy)]
pub struct Fault {
    pub number: usize,
    pub net: usize,
}

/// The image of a good netlist with these faults in it.
pub fn damaged(random: &mut Random, nets: &[Net], faults: &[Fault]) -> Vec<u8> {
    let mut nets = nets.to_vec();
    let mut sizes = Sizes::of(&nets);
    for fault in faults {
        let net = &mut nets[fault.net];
        match fault.number {
            0 => put_highest_pin(random, net, fault.net, sizes.nets),
            4 => net.kind = bad_kind(random, net.kind),
            5 => put_bad_pin(random, net, fault.net, sizes.nets),
            6 => put_bad_setting(random, net),
            7 => put_unlisted(random, net),
            8 => put_wrong_count(random, &mut sizes),
            _ => {}
        }
    }
    let mut image = encode_with(sizes, &nets);
    for fault in faults {
        match fault.number {
            1 => image.truncate(random.below(8)),
            2 => put_bad_size(random, &mut image),
            3 => put_wrong_length(random, &mut image),
            _ => {}
        }
    }
    image
}

/// A kind above 8. Often its low bits are those of the kind that was there.
fn bad_kind(random: &mut Random, kind: u8) -> u8 {
    let any = random.between(9, 255) as u8;
    random.pick(&[9, 10, 255, any, kind | 16, kind | 128])
}

/// Has a pin name the highest net that it may, mostly inverted. A net without pins
/// stays as it is.
fn put_highest_pin(random: &mut Random, net: &mut Net, number: usize, size: usize) {
    let limit = limit_of(net.kind, number, size);
    if pins_of(net.kind) > 0 && limit > 0 {
        let top = INVERTED * u16::from(random.chance(3, 4));
        net.operands[random.below(pins_of(net.kind))] = (limit - 1) as u16 + top;
    }
}

/// Has a pin name a net that it must not name, inverted or not. A net without
/// pins first becomes one that has some.
fn put_bad_pin(random: &mut Random, net: &mut Net, number: usize, size: usize) {
    if pins_of(net.kind) == 0 {
        *net = Net::new(random.pick(&[REG, NOT, AND, OR, XOR, MUX, OUT]), 0, 0, 0);
    }
    let pin = &mut net.operands[random.below(pins_of(net.kind))];
    let limit = limit_of(net.kind, number, size);
    let top = INVERTED * u16::from(random.chance(1, 2));
    *pin = bad_number(random, limit, 32_767, net_of(*pin)) + top;
}

/// A number from the limit to the most: just at the limit, or with a high byte
/// set.
fn bad_number(random: &mut Random, limit: usize, most: usize, was: usize) -> u16 {
    let high_byte = random.between(1, most / 256) * 256;
    let number = match random.below(7) {
        0 | 1 => limit,
        2 => limit + 1,
        3 => limit.max(was % 256 + high_byte),
        4 => limit.max(high_byte),
        5 => most,
        _ => random.between(limit, most),
    };
    number as u16
}

/// Gives a CONST, a start or a policy a value that is too large, in some draws by
/// the top bit alone. Another net first becomes a CONST.
fn put_bad_setting(random: &mut Random, net: &mut Net) {
    let (index, most) = match setting_of(net.kind) {
        Some(setting) => setting,
        None => {
            *net = Net::new(CONST, 0, 0, 0);
            (0, 1)
        }
    };
    let setting = &mut net.operands[index];
    *setting = if random.chance(1, 4) {
        *setting | INVERTED
    } else {
        bad_number(random, usize::from(most) + 1, 65_535, usize::from(*setting))
    };
}

/// Gives an operand that is not listed a value other than 0. A MUX, which has
/// none such, becomes an INPUT.
fn put_unlisted(random: &mut Random, net: &mut Net) {
    if listed_of(net.kind) == 3 {
        *net = Net::new(INPUT, 0, 0, 0);
    }
    let index = random.between(listed_of(net.kind), 2);
    let any = random.between(1, 65_535) as u16;
    net.operands[index] = random.pick(&[1, 2, 256, INVERTED, 65_535, any]);
}

/// Makes I, R or O wrong, or swaps two of them.
fn put_wrong_count(random: &mut Random, sizes: &mut Sizes) {
    let mut counts = [sizes.inputs, sizes.registers, sizes.outputs];
    let index = random.below(3);
    let right = counts[index];
    match random.below(6) {
        0 => counts[index] = (right + 65_535) % 65_536,
        1 => counts[index] = (right + 1) % 65_536,
        2 => counts[index] = right ^ 256,
        3 => counts[index] = 65_535 - right,
        4 => counts[index] = random.below(65_536),
        _ => counts.swap(index, random.below(3)),
    }
    [sizes.inputs, sizes.registers, sizes.outputs] = counts;
}

/// Makes N 0 or larger than 8,192. The length may be right for that N.
fn put_bad_size(random: &mut Random, image: &mut Vec<u8>) {
    let sizes = match tracker::sizes(image) {
        Some(sizes) => sizes,
        None => return,
    };
    let any = random.between(MOST_NETS + 1, 65_535);
    let high_bit = sizes.nets + 32_768;
    let size = random.pick(&[0, 8193, 8194, 16_384, 32_768, 65_535, any, high_bit]);
    let nets = size % 65_536;
    let head = Sizes { nets, ..sizes }.to_bytes();
    image[..head.len()].copy_from_slice(&head);
    if size <= 8194 && random.chance(1, 2) {
        image.resize(image_length(size), 0);
    }
}

/// Makes the length or N a little or much different, with N still good.
fn put_wrong_length(random: &mut Random, image: &mut Vec<u8>) {
    if image.len() < 8 {
        return;
    }
    let length = image.len();
    match random.below(8) {
        0 => image.truncate(length - 1),
        1 => image.push(random.byte()),
        2 => image.resize(length + 7, 0),
        3 => image.truncate(length.saturating_sub(7).max(8)),
        4 => image.truncate(8),
        5 => image.resize(2 * length, 0),
        6 => image[0] ^= 1,
        _ => image[1] ^= 1 << random.below(5),
    }
}
