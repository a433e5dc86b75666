//! Stand-ins that refuse pages wrongly, or leave wrong bytes beside right pages.

use crate::parts::{bytes, bytes_mut, read};
use tests::coding::{number_of, place_of};
use tests::{Calls, LIBRARY};
use tracker::page_length;

const ONE: u64 = 1 << 32;

/// The length of the record that belongs to an image that is not refused, and of the
/// pages. k is at most 4,096.
unsafe fn right_lengths(image: *const u8, il: usize, k: usize) -> (usize, usize) {
    let outputs = read(image, il).sizes().outputs;
    (k * outputs, page_length(k, outputs))
}

/// Tries the record's length before its bytes.
pub const LENGTH_BEFORE_BYTES: Calls = Calls {
    page: page_length_first,
    ..LIBRARY
};

#[rustfmt::skip]
unsafe extern "C" fn page_length_first(
    image: *const u8, il: usize, k: usize, record: *const u8, rl: usize,
    page: *mut u8, pl: usize,
) -> u64 {
    let answer = (LIBRARY.page)(image, il, k, record, rl, page, pl);
    match number_of(answer) {
        13 if rl != right_lengths(image, il, k).0 => 14 * ONE,
        _ => answer,
    }
}

/// Looks at the bytes of a longer record up to its right length alone.
pub const BYTES_WITHIN: Calls = Calls {
    page: page_bytes_within,
    ..LIBRARY
};

#[rustfmt::skip]
unsafe extern "C" fn page_bytes_within(
    image: *const u8, il: usize, k: usize, record: *const u8, rl: usize,
    page: *mut u8, pl: usize,
) -> u64 {
    let answer = (LIBRARY.page)(image, il, k, record, rl, page, pl);
    match number_of(answer) {
        13 if place_of(answer) >= right_lengths(image, il, k).0 => 14 * ONE,
        _ => answer,
    }
}

/// Tries the page buffer before the record.
pub const PAGE_FIRST: Calls = Calls {
    page: page_page_first,
    ..LIBRARY
};

#[rustfmt::skip]
unsafe extern "C" fn page_page_first(
    image: *const u8, il: usize, k: usize, record: *const u8, rl: usize,
    page: *mut u8, pl: usize,
) -> u64 {
    let answer = (LIBRARY.page)(image, il, k, record, rl, page, pl);
    match number_of(answer) {
        13 | 14 if pl != right_lengths(image, il, k).1 => 19 * ONE,
        _ => answer,
    }
}

/// Takes a page buffer that is longer than the pages.
pub const TAKES_LONGER: Calls = Calls {
    page: page_longer,
    ..LIBRARY
};

#[rustfmt::skip]
unsafe extern "C" fn page_longer(
    image: *const u8, il: usize, k: usize, record: *const u8, rl: usize,
    page: *mut u8, pl: usize,
) -> u64 {
    let answer = (LIBRARY.page)(image, il, k, record, rl, page, pl);
    if number_of(answer) != 19 {
        return answer;
    }
    let right = right_lengths(image, il, k).1;
    (LIBRARY.page)(image, il, k, record, rl, page, pl.min(right))
}

/// Counts the index of a bad byte from the start of its cycle.
pub const PLACE_IN_ITS_CYCLE: Calls = Calls {
    page: page_place_in_its_cycle,
    ..LIBRARY
};

#[rustfmt::skip]
unsafe extern "C" fn page_place_in_its_cycle(
    image: *const u8, il: usize, k: usize, record: *const u8, rl: usize,
    page: *mut u8, pl: usize,
) -> u64 {
    let answer = (LIBRARY.page)(image, il, k, record, rl, page, pl);
    match number_of(answer) {
        13 => 13 * ONE + (place_of(answer) % read(image, il).sizes().outputs.max(1)) as u64,
        _ => answer,
    }
}

/// Takes the low 32 bits of k alone.
pub const NARROW_K: Calls = Calls {
    page: page_narrow_k,
    ..LIBRARY
};

#[rustfmt::skip]
unsafe extern "C" fn page_narrow_k(
    image: *const u8, il: usize, k: usize, record: *const u8, rl: usize,
    page: *mut u8, pl: usize,
) -> u64 {
    (LIBRARY.page)(image, il, k % (1 << 32), record, rl, page, pl)
}

/// Fills the page buffer with blanks before it refuses.
pub const REFUSED_WRITES: Calls = Calls {
    page: page_refused_writes,
    ..LIBRARY
};

#[rustfmt::skip]
unsafe extern "C" fn page_refused_writes(
    image: *const u8, il: usize, k: usize, record: *const u8, rl: usize,
    page: *mut u8, pl: usize,
) -> u64 {
    let answer = (LIBRARY.page)(image, il, k, record, rl, page, pl);
    if number_of(answer) != 0 {
        bytes_mut(page, pl).fill(b' ');
    }
    answer
}

/// Puts the signs into the record that it only reads, and writes right pages.
pub const WRITES_THE_RECORD: Calls = Calls {
    page: page_writes_the_record,
    ..LIBRARY
};

#[rustfmt::skip]
unsafe extern "C" fn page_writes_the_record(
    image: *const u8, il: usize, k: usize, record: *const u8, rl: usize,
    page: *mut u8, pl: usize,
) -> u64 {
    let answer = (LIBRARY.page)(image, il, k, record, rl, page, pl);
    if answer == 0 {
        let own = bytes(record, rl).to_vec();
        let signs = own.iter().map(|byte| b"01lh"[usize::from(*byte)]);
        bytes_mut(record as *mut u8, rl).iter_mut().zip(signs).for_each(|(byte, sign)| *byte = sign);
    }
    answer
}

/// Puts a 0 byte behind the pages.
pub const WRITES_BEHIND: Calls = Calls {
    page: page_behind,
    ..LIBRARY
};

#[rustfmt::skip]
unsafe extern "C" fn page_behind(
    image: *const u8, il: usize, k: usize, record: *const u8, rl: usize,
    page: *mut u8, pl: usize,
) -> u64 {
    *page.add(pl) = 0;
    (LIBRARY.page)(image, il, k, record, rl, page, pl)
}
