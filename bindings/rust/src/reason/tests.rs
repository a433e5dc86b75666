//! The numbers of the reasons, against the specification's table.

use super::*;
use crate::Refusal;

#[test]
fn the_numbers_1_to_20_each_have_a_reason() {
    for (number, reason) in (1..=20).zip(REASONS) {
        assert_eq!(reason.number(), number);
        assert_eq!(Reason::from_number(number), Some(reason));
    }
}

#[test]
fn no_other_number_has_one() {
    for number in [0, 21, 26, u32::MAX] {
        assert_eq!(Reason::from_number(number), None);
    }
}

#[test]
fn nets_and_indexes_are_places_and_the_others_have_none() {
    for reason in REASONS {
        let word = match reason.number() {
            4..=7 => Some("net"),
            11 | 13 | 18 => Some("index"),
            _ => None,
        };
        assert_eq!(reason.place_word(), word);
    }
}

#[test]
fn a_refusal_says_its_place_where_it_has_one() {
    let words = |reason, place| Refusal { reason, place }.to_string();
    assert_eq!(
        words(Reason::ImageTooShort, 0),
        "refusal 1: the image is under 8 bytes"
    );
    assert_eq!(
        words(Reason::Value, 5),
        "refusal 6 at net 5: a CONST is above 1, a start above 2 or a policy above 1"
    );
    assert_eq!(
        words(Reason::StateByte, 0),
        "refusal 11 at index 0: a register's byte in the state is above 3"
    );
    assert_eq!(
        words(Reason::StaticByte, 7),
        "refusal 18 at index 7: a state or row byte of a static run is 5 or above 6"
    );
    assert_eq!(
        words(Reason::PageLength, 0),
        "refusal 19: the page buffer's length is not that of the pages"
    );
    assert_eq!(
        words(Reason::StateCount, 0),
        "refusal 20: the state's count is not the number of marked registers"
    );
}
