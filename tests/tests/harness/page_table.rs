//! The broken stand-ins for the call that writes pages.

use crate::table::{answer, at, lent_byte, place, refused, stand_in, StandIn};
use crate::{page_refusals, page_texts};
use tests::{Failure, Spot};

/// A byte of the pages differs, and where they were read back, that they do.
fn text(failure: &Failure) -> bool {
    let is_read_back = failure.family == "page_texts";
    lent_byte(failure) && failure.property.is_some() == is_read_back
}

fn record(failure: &Failure) -> bool {
    matches!(at(failure), Some(("record", _)))
}

fn guard_behind(failure: &Failure) -> bool {
    at(failure) == Some(("page", Spot::After(1)))
}

#[rustfmt::skip]
pub const PAGE_STAND_INS: [StandIn; 19] = [
    stand_in("takes 65 cycles for a page", page_texts::CYCLES_65,
        &["exhaustive", "good", "lists", "page_texts"], text),
    stand_in("sets net numbers left", page_texts::NUMBER_LEFT,
        &["exhaustive", "good", "large", "lists", "page_texts"], text),
    stand_in("heads pages with their own numbers", page_texts::PAGE_NUMBERS,
        &["exhaustive", "good", "lists", "page_texts"], text),
    stand_in("exchanges l and h", page_texts::EXCHANGED,
        &["exhaustive", "good", "large", "lists", "page_texts"], text),
    stand_in("leaves unused columns as they are", page_texts::NOT_FILLED,
        &["exhaustive", "good", "large", "lists", "page_texts"], text),
    stand_in("numbers the outputs for their nets", page_texts::PLACE_OF_OUTPUT,
        &["exhaustive", "good", "large", "lists", "page_texts"], text),
    stand_in("names the net that an OUT reads", page_texts::NET_OF_PIN,
        &["exhaustive", "good", "large", "lists", "page_texts"], text),
    stand_in("reads the record output after output", page_texts::BY_OUTPUTS,
        &["exhaustive", "good", "large", "lists", "page_texts"], text),
    stand_in("writes bytes as digits", page_texts::DIGITS,
        &["exhaustive", "good", "large", "lists", "page_texts"], text),
    stand_in("sets cycle numbers right", page_texts::CYCLE_RIGHT,
        &["exhaustive", "good", "large", "lists", "page_texts"], text),
    stand_in("tries a record's length before its bytes", page_refusals::LENGTH_BEFORE_BYTES,
        &["lent", "lists"], answer),
    stand_in("tries no bytes behind a record's length", page_refusals::BYTES_WITHIN,
        &["lent", "lists"], answer),
    stand_in("tries the page buffer before the record", page_refusals::PAGE_FIRST,
        &["lent", "lists"], answer),
    stand_in("writes pages into a longer buffer", page_refusals::TAKES_LONGER,
        &["lent", "lists"], answer),
    stand_in("counts a bad byte within its cycle", page_refusals::PLACE_IN_ITS_CYCLE,
        &["lent", "lists"], place),
    stand_in("takes 32 bits of a record's k", page_refusals::NARROW_K,
        &["lent", "lists"], answer),
    stand_in("refuses pages and writes", page_refusals::REFUSED_WRITES,
        &["damaged", "noise", "lent", "lists"], refused),
    stand_in("writes the record", page_refusals::WRITES_THE_RECORD,
        &["exhaustive", "good", "large", "lists", "page_texts"], record),
    stand_in("puts a 0 byte behind the pages", page_refusals::WRITES_BEHIND,
        &["exhaustive", "good", "large", "lent", "lists", "page_texts"], guard_behind),
];
