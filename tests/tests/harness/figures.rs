//! Stand-ins that get the figures of the doubled netlist wrong.

use crate::parts::{bytes_mut, read};
use reference::GROUP_LENGTHS;
use tests::coding::number_of;
use tests::{Calls, LIBRARY};
use tracker::kinds::MUX;
use tracker::MOST_NETS;

const ONE: u64 = 1 << 32;

/// The sum of the group lengths of a lent image whose kinds are kinds.
unsafe fn group_lengths(image: *const u8, length: usize) -> usize {
    let kinds = read(image, length).kinds().iter();
    kinds.map(|kind| GROUP_LENGTHS[usize::from(*kind)]).sum()
}

/// Gives the number of nets of the source.
pub const SOURCE_NETS: Calls = Calls {
    doubled_size: size_of_source,
    ..LIBRARY
};

unsafe extern "C" fn size_of_source(image: *const u8, length: usize) -> u64 {
    let answer = (LIBRARY.doubled_size)(image, length);
    match number_of(answer) {
        0 => read(image, length).sizes().nets as u64,
        _ => answer,
    }
}

/// Counts the nets of a kind in the source.
pub const SOURCE_KINDS: Calls = Calls {
    doubled_kind: kind_of_source,
    ..LIBRARY
};

unsafe extern "C" fn kind_of_source(image: *const u8, length: usize, kind: usize) -> u64 {
    let answer = (LIBRARY.doubled_kind)(image, length, kind);
    if number_of(answer) != 0 {
        return answer;
    }
    let kinds = read(image, length).kinds().iter();
    kinds.filter(|other| usize::from(**other) == kind).count() as u64
}

/// Gives the number of nets also where there are more than 8,192.
pub const NO_LIMIT: Calls = Calls {
    doubled_size: size_without_limit,
    ..LIBRARY
};

unsafe extern "C" fn size_without_limit(image: *const u8, length: usize) -> u64 {
    let answer = (LIBRARY.doubled_size)(image, length);
    match number_of(answer) {
        15 => group_lengths(image, length) as u64,
        _ => answer,
    }
}

/// Tries the number of nets before I, R and O.
pub const LIMIT_FIRST: Calls = Calls {
    doubled_size: size_limit_first,
    ..LIBRARY
};

unsafe extern "C" fn size_limit_first(image: *const u8, length: usize) -> u64 {
    let answer = (LIBRARY.doubled_size)(image, length);
    match number_of(answer) {
        8 if group_lengths(image, length) > MOST_NETS => 15 * ONE,
        _ => answer,
    }
}

/// Counts one MUX for the two of a MUX's group.
pub const ONE_MUX: Calls = Calls {
    doubled_kind: kind_one_mux,
    ..LIBRARY
};

unsafe extern "C" fn kind_one_mux(image: *const u8, length: usize, kind: usize) -> u64 {
    let answer = (LIBRARY.doubled_kind)(image, length, kind);
    match number_of(answer) {
        0 if kind == usize::from(MUX) => answer / 2,
        _ => answer,
    }
}

/// Takes the low byte of a kind alone.
pub const NARROW_KIND: Calls = Calls {
    doubled_kind: kind_low_byte,
    ..LIBRARY
};

unsafe extern "C" fn kind_low_byte(image: *const u8, length: usize, kind: usize) -> u64 {
    (LIBRARY.doubled_kind)(image, length, kind % 256)
}

/// Writes into the image that it only reads, and gives the right answer.
pub const WRITES_THE_IMAGE: Calls = Calls {
    doubled_kind: kind_writes,
    ..LIBRARY
};

unsafe extern "C" fn kind_writes(image: *const u8, length: usize, kind: usize) -> u64 {
    let answer = (LIBRARY.doubled_kind)(image, length, kind);
    if let Some(byte) = bytes_mut(image as *mut u8, length).last_mut() {
        *byte ^= 1;
    }
    answer
}
