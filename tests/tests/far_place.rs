//! A record that is so long that the place of its bad byte has no room in an answer.

use std::alloc::{alloc_zeroed, dealloc, Layout};
use std::slice::from_raw_parts_mut;

use tests::coding::{number_of, place_of};
use tests::LIBRARY;
use tracker::kinds::CONST;
use tracker::{encode, Net};

/// The largest place of an answer.
const MOST_PLACE: usize = u32::MAX as usize;

/// A record is tried for bad bytes whatever its length. A place up to 2^32 - 1 is given
/// as it is, and a larger one as 2^32 - 1. The record's bytes are 0 and are hardly
/// touched, so that they take little memory. Where the system has no room for them,
/// nothing is tried.
#[test]
fn a_place_behind_the_largest_is_given_as_the_largest() {
    let layout = Layout::array::<u8>(MOST_PLACE + 8).expect("a layout of bytes");
    // The layout has bytes.
    let pointer = unsafe { alloc_zeroed(layout) };
    if pointer.is_null() {
        println!("there is no room for {} bytes", layout.size());
        return;
    }
    // The allocation has so many bytes, all of which are set, and it is given back
    // after the last use of them.
    unsafe {
        let record = from_raw_parts_mut(pointer, layout.size());
        places(record);
        dealloc(pointer, layout);
    }
}

/// Puts bad bytes into the record, the last one first.
fn places(record: &mut [u8]) {
    for (index, place) in [
        (MOST_PLACE + 7, MOST_PLACE),
        (MOST_PLACE - 1, MOST_PLACE - 1),
    ] {
        record[index] = 4;
        let answer = page(record);
        assert_eq!((number_of(answer), place_of(answer)), (13, place));
    }
}

/// The library's answer for a record that is too long, with no cycles and no page.
fn page(record: &[u8]) -> u64 {
    let image = encode(&[Net::new(CONST, 0, 0, 0)]);
    // Each pointer is to as many bytes as the length behind it says.
    unsafe {
        (LIBRARY.page)(
            image.as_ptr(),
            image.len(),
            0,
            record.as_ptr(),
            record.len(),
            [].as_mut_ptr(),
            0,
        )
    }
}
