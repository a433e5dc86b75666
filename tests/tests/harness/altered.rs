//! Stand-ins that take another image than the one that they are lent: each operand
//! is altered before a call looks at it.

use crate::parts::{bytes, library_run};
use tests::listed::{listed_of, pins_of, setting_of};
use tests::{Calls, LIBRARY};
use tracker::kinds::INVERTED;
use tracker::{operand_place, Image, MOST_NETS};

/// Gives the altered operand, by the kind of its net and its index.
type Alteration = fn(u8, usize, u16) -> u16;

const ALTERATIONS: [Alteration; 5] = [
    whole_number,
    plain,
    setting_without_bit,
    unlisted_without_bit,
    thirteen_bits,
];

/// Tries the whole number of a pin, its top bit too, for refusal 5.
pub const WHOLE_NUMBER: Calls = altered::<0>();

/// Drops the top bit of every pin.
pub const PLAIN: Calls = altered::<1>();

/// Drops the top bit of a CONST, a start or a policy.
pub const SETTING_WITHOUT_BIT: Calls = altered::<2>();

/// Drops the top bit of an operand that is not listed.
pub const UNLISTED_WITHOUT_BIT: Calls = altered::<3>();

/// Takes the net of a pin from the low 13 bits alone.
pub const THIRTEEN_BITS: Calls = altered::<4>();

/// A pin with the top bit becomes one that names no net.
fn whole_number(kind: u8, index: usize, operand: u16) -> u16 {
    if index < pins_of(kind) && operand >= INVERTED {
        INVERTED - 1
    } else {
        operand
    }
}

fn plain(kind: u8, index: usize, operand: u16) -> u16 {
    without_bit(index < pins_of(kind), operand)
}

fn setting_without_bit(kind: u8, index: usize, operand: u16) -> u16 {
    let setting = setting_of(kind).map(|(index, _)| index);
    without_bit(setting == Some(index), operand)
}

fn unlisted_without_bit(kind: u8, index: usize, operand: u16) -> u16 {
    without_bit(index >= listed_of(kind), operand)
}

fn without_bit(is_dropped: bool, operand: u16) -> u16 {
    if is_dropped {
        operand % INVERTED
    } else {
        operand
    }
}

fn thirteen_bits(kind: u8, index: usize, operand: u16) -> u16 {
    if index < pins_of(kind) {
        (operand & INVERTED) + operand % MOST_NETS as u16
    } else {
        operand
    }
}

const fn altered<const INDEX: usize>() -> Calls {
    Calls {
        check: check::<INDEX>,
        power_up: power_up::<INDEX>,
        step: step::<INDEX>,
        run: run::<INDEX, false>,
        doubled_size: doubled_size::<INDEX>,
        doubled_kind: doubled_kind::<INDEX>,
        double: double::<INDEX>,
        static_power_up: static_power_up::<INDEX>,
        static_run: run::<INDEX, true>,
        page: page::<INDEX>,
    }
}

/// The altered copy of a lent image. One of a wrong length stays as it is.
unsafe fn copy<const INDEX: usize>(image: *const u8, length: usize) -> Vec<u8> {
    let lent = bytes(image, length);
    let mut copy = lent.to_vec();
    let image = match Image::of(lent) {
        Some(image) => image,
        None => return copy,
    };
    for (number, net) in image.nets().enumerate() {
        for (index, operand) in net.operands.into_iter().enumerate() {
            let altered = ALTERATIONS[INDEX](net.kind, index, operand);
            let place = operand_place(image.sizes().nets, number, index);
            copy[place..place + 2].copy_from_slice(&altered.to_le_bytes());
        }
    }
    copy
}

unsafe extern "C" fn check<const INDEX: usize>(image: *const u8, il: usize) -> u64 {
    (LIBRARY.check)(copy::<INDEX>(image, il).as_ptr(), il)
}

#[rustfmt::skip]
unsafe extern "C" fn power_up<const INDEX: usize>(
    image: *const u8, il: usize, state: *mut u8, sl: usize,
) -> u64 {
    (LIBRARY.power_up)(copy::<INDEX>(image, il).as_ptr(), il, state, sl)
}

#[rustfmt::skip]
unsafe extern "C" fn step<const INDEX: usize>(
    image: *const u8, il: usize, state: *mut u8, sl: usize,
    row: *const u8, rl: usize, nets: *mut u8, nl: usize,
) -> u64 {
    (LIBRARY.step)(copy::<INDEX>(image, il).as_ptr(), il, state, sl, row, rl, nets, nl)
}

#[rustfmt::skip]
unsafe extern "C" fn run<const INDEX: usize, const STATIC: bool>(
    image: *const u8, il: usize, k: usize, state: *mut u8, sl: usize,
    rows: *const u8, rl: usize, outputs: *mut u8, ol: usize,
) -> u64 {
    let copy = copy::<INDEX>(image, il);
    library_run::<STATIC>()(copy.as_ptr(), il, k, state, sl, rows, rl, outputs, ol)
}

#[rustfmt::skip]
unsafe extern "C" fn static_power_up<const INDEX: usize>(
    image: *const u8, il: usize, state: *mut u8, sl: usize,
) -> u64 {
    (LIBRARY.static_power_up)(copy::<INDEX>(image, il).as_ptr(), il, state, sl)
}

#[rustfmt::skip]
unsafe extern "C" fn page<const INDEX: usize>(
    image: *const u8, il: usize, k: usize, record: *const u8, rl: usize,
    page: *mut u8, pl: usize,
) -> u64 {
    (LIBRARY.page)(copy::<INDEX>(image, il).as_ptr(), il, k, record, rl, page, pl)
}

unsafe extern "C" fn doubled_size<const INDEX: usize>(image: *const u8, il: usize) -> u64 {
    (LIBRARY.doubled_size)(copy::<INDEX>(image, il).as_ptr(), il)
}

#[rustfmt::skip]
unsafe extern "C" fn doubled_kind<const INDEX: usize>(
    image: *const u8, il: usize, kind: usize,
) -> u64 {
    (LIBRARY.doubled_kind)(copy::<INDEX>(image, il).as_ptr(), il, kind)
}

#[rustfmt::skip]
unsafe extern "C" fn double<const INDEX: usize>(
    image: *const u8, il: usize, buffer: *mut u8, bl: usize,
) -> u64 {
    (LIBRARY.double)(copy::<INDEX>(image, il).as_ptr(), il, buffer, bl)
}
