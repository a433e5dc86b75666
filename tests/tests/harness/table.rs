//! Broken stand-ins, with the families that have to catch them and what their
//! reports have to show: those for all calls but the one that writes pages, and but
//! those that get the counts of states wrong.

use crate::{altered, answers, cycles, doubled_bits, doubling, figures};
use crate::{lent_bytes, order, rules, static_calls, static_rules, waking};
use tests::{Calls, Failure, Spot};

pub struct StandIn {
    pub name: &'static str,
    pub calls: Calls,
    pub caught_by: &'static [&'static str],
    pub shows: fn(&Failure) -> bool,
}

pub const fn stand_in(
    name: &'static str,
    calls: Calls,
    caught_by: &'static [&'static str],
    shows: fn(&Failure) -> bool,
) -> StandIn {
    StandIn {
        name,
        calls,
        caught_by,
        shows,
    }
}

/// The two answers differ, or a property of the answer does not hold.
pub fn answer(failure: &Failure) -> bool {
    failure.property.is_some() || (failure.expected.is_some() && differs(failure))
}

fn differs(failure: &Failure) -> bool {
    failure.expected != Some(failure.answer)
}

/// The numbers of the refusals are equal and their places differ.
pub fn place(failure: &Failure) -> bool {
    let number = failure.expected.map(|expected| expected >> 32);
    differs(failure) && number == Some(failure.answer >> 32)
}

/// The answers are equal and a lent byte differs, or a property of the lent
/// bytes does not hold.
pub fn lent_byte(failure: &Failure) -> bool {
    let spot = failure.byte.map(|byte| byte.spot);
    let inside = matches!(spot, Some(Spot::Inside(_)));
    failure.property.is_some() || (inside && !differs(failure))
}

/// After a refusal a lent byte differs.
pub fn refused(failure: &Failure) -> bool {
    failure.answer >> 32 != 0 && failure.byte.is_some()
}

/// A lent byte or the verdict differs, or a property does not hold.
pub fn anything(failure: &Failure) -> bool {
    answer(failure) || lent_byte(failure)
}

/// Where the first differing byte stands.
pub fn at(failure: &Failure) -> Option<(&'static str, Spot)> {
    failure.byte.map(|byte| (byte.buffer, byte.spot))
}

fn guard_before(failure: &Failure) -> bool {
    at(failure) == Some(("state", Spot::Before(1)))
}

fn guard_behind(failure: &Failure) -> bool {
    at(failure) == Some(("outputs", Spot::After(1)))
}

fn image(failure: &Failure) -> bool {
    matches!(at(failure), Some(("image", _)))
}

#[rustfmt::skip]
pub const STAND_INS: [StandIn; 80] = [
    stand_in("accepts wrong counts", answers::ACCEPTS_WRONG_COUNTS,
        &["operands", "damaged", "noise", "lists"], answer),
    stand_in("answers with the next net", answers::NEXT_PLACE,
        &["operands", "damaged", "noise", "lists"], place),
    stand_in("counts a bad byte within its row", answers::PLACE_IN_ITS_ROW,
        &["lent", "lists"], place),
    stand_in("answers with the highest flow", answers::HIGHEST_FLOW,
        &["good", "large", "lists", "two_runs", "steps"], answer),
    stand_in("says clear of every run", answers::ALWAYS_CLEAR,
        &["exhaustive", "good", "large", "extreme", "lists", "two_runs", "steps"], answer),
    stand_in("answers 0 for a clear step", answers::CLEAR_IS_0,
        &["exhaustive", "good", "large", "lists", "two_runs", "steps", "exact"], answer),
    stand_in("turns every image back", answers::TURNS_ALL_BACK,
        &["exhaustive", "operands", "good", "lent", "doubling", "pairing", "two_runs", "steps",
            "exact"], answer),
    stand_in("tries the net buffer first", order::BUFFER_FIRST, &["lent", "lists"], answer),
    stand_in("takes 32 bits of k", order::NARROW_K, &["lent", "lists"], answer),
    stand_in("tries k x I before k", order::PRODUCT_FIRST, &["lent", "lists"], answer),
    stand_in("writes before the state", lent_bytes::WRITES_BEFORE,
        &["exhaustive", "good", "large", "lent", "lists", "pairing", "two_runs", "steps"],
        guard_before),
    stand_in("writes behind the outputs", lent_bytes::WRITES_BEHIND,
        &["exhaustive", "good", "lent", "lists", "pairing", "two_runs", "steps"], guard_behind),
    stand_in("writes into the image", lent_bytes::WRITES_THE_IMAGE,
        &["exhaustive", "operands", "good", "damaged", "noise", "pairing"], image),
    stand_in("gets one net wrong", lent_bytes::ONE_NET_WRONG,
        &["exhaustive", "good", "large", "lent", "lists", "pairing", "steps", "exact"], lent_byte),
    stand_in("leaves the nets untouched", lent_bytes::NETS_UNTOUCHED,
        &["exhaustive", "good", "large", "lists", "pairing", "two_runs", "steps", "exact"],
        lent_byte),
    stand_in("marks every net", lent_bytes::ALL_MARKED,
        &["exhaustive", "good", "large", "lists", "pairing", "steps", "exact"], lent_byte),
    stand_in("refuses and writes", lent_bytes::REFUSED_WRITES,
        &["lent", "lists", "two_runs"], refused),
    stand_in("clocks one register after another", cycles::CLOCKED_IN_TURN,
        &["exhaustive", "good", "large", "lists", "two_runs", "steps"], lent_byte),
    stand_in("stops the outputs at the first flow", cycles::STOPS_AT_FLOW,
        &["exhaustive", "good", "large", "lists", "two_runs", "steps"], lent_byte),
    stand_in("copies cycle 0 onward", cycles::COPIES_CYCLE_0,
        &["exhaustive", "good", "large", "lists", "two_runs", "steps"], lent_byte),
    stand_in("runs and keeps the state", cycles::RUN_KEEPS_STATE,
        &["exhaustive", "good", "large", "lists", "two_runs", "steps"], lent_byte),
    stand_in("marks whenever a pin is marked", rules::ANY_PIN_MARKS,
        &["exhaustive", "good", "large", "lists", "pairing", "exact"], anything),
    stand_in("forgets the mark of a MUX's c", rules::CHOSEN_PIN_MARKS,
        &["good", "large", "lists", "pairing", "two_runs", "exact"], anything),
    stand_in("marks a MUX between two ones", rules::COMPOSED_MUX,
        &["exhaustive", "four_nets", "good", "large", "lent", "lists", "doubling", "pairing",
            "exact", "filling", "known"], anything),
    stand_in("clears XOR of a net with itself", rules::OWN_XOR_IS_CLEAR,
        &["exhaustive", "good", "large", "lists", "pairing"], anything),
    stand_in("inverts the mark too", rules::INVERTS_THE_MARK,
        &["exhaustive", "good", "large", "lists", "doubling", "pairing", "two_runs", "exact"],
        anything),
    stand_in("drops the mark at an inverted pin", rules::INVERTED_IS_TRUSTED,
        &["exhaustive", "good", "large", "lists", "doubling", "pairing", "two_runs", "exact"],
        anything),
    stand_in("marks as if no pin were inverted", rules::PLAIN_MARKS,
        &["exhaustive", "good", "large", "lists", "doubling", "pairing", "two_runs", "exact"],
        anything),
    stand_in("does not invert at the clock", rules::PLAIN_CLOCK,
        &["exhaustive", "good", "large", "lists", "doubling"], anything),
    stand_in("does not invert at an OUT", rules::PLAIN_OUT,
        &["exhaustive", "good", "large", "lists", "doubling"], anything),
    stand_in("does not invert a MUX's c", rules::PLAIN_SELECT,
        &["exhaustive", "good", "large", "lists", "doubling"], anything),
    stand_in("inverts no pin", altered::PLAIN,
        &["exhaustive", "good", "large", "lists", "doubling"], anything),
    stand_in("tries 5 on the whole number", altered::WHOLE_NUMBER,
        &["exhaustive", "operands", "good", "damaged", "lists", "pairing", "two_runs", "steps",
            "exact"], answer),
    stand_in("tries 5 on 13 bits", altered::THIRTEEN_BITS, &["operands", "damaged"], answer),
    stand_in("ignores the bit of a setting", altered::SETTING_WITHOUT_BIT,
        &["operands", "damaged", "lists"], answer),
    stand_in("ignores the bit of an unlisted operand", altered::UNLISTED_WITHOUT_BIT,
        &["operands", "damaged", "lists"], answer),
    stand_in("keeps the bit on mark pins", doubled_bits::KEPT_ON_MARKS,
        &["exhaustive", "good", "lists", "doubling", "pairing", "two_runs"], lent_byte),
    stand_in("drops the bit on value pins", doubled_bits::DROPPED_ON_VALUES,
        &["exhaustive", "good", "lists", "doubling", "pairing"], lent_byte),
    stand_in("drops the bit on inner value pins", doubled_bits::DROPPED_ON_INNER,
        &["exhaustive", "good", "lists", "doubling", "pairing", "two_runs"], lent_byte),
    stand_in("inverts an OR's inner pins", doubled_bits::OR_INVERTED_TWICE,
        &["exhaustive", "good", "lists", "doubling", "pairing", "two_runs"], lent_byte),
    stand_in("trusts a register without a start", waking::WAKES_TRUSTED,
        &["exhaustive", "good", "large", "lists", "pairing", "two_runs"], lent_byte),
    stand_in("wakes a register without a start as 1", waking::WAKES_AS_1,
        &["exhaustive", "good", "large", "lists"], lent_byte),
    stand_in("starts every mark register at 0", waking::MARKS_AT_0,
        &["exhaustive", "good", "lists", "doubling", "pairing", "two_runs"], lent_byte),
    stand_in("gives some mark registers no start", waking::MARKS_UNKNOWN,
        &["exhaustive", "good", "lists", "doubling", "pairing", "two_runs"], lent_byte),
    stand_in("starts every mark register at 1", waking::MARKS_AT_1,
        &["exhaustive", "good", "lists", "doubling", "pairing"], lent_byte),
    stand_in("doubles with one wrong byte", doubling::ONE_BYTE_WRONG,
        &["exhaustive", "good", "lists", "doubling", "pairing"], lent_byte),
    stand_in("doubles to CONSTs", doubling::CONSTS_ONLY,
        &["exhaustive", "good", "lists", "doubling", "pairing", "two_runs"], lent_byte),
    stand_in("doubles a MUX with an OR for its p", doubling::OR_FOR_P,
        &["exhaustive", "four_nets", "good", "large", "lent", "lists", "doubling", "pairing",
            "two_runs"], lent_byte),
    stand_in("doubles into a longer buffer", doubling::TAKES_LONGER,
        &["lent", "lists", "doubling"], answer),
    stand_in("gives the source's nets for the doubled", figures::SOURCE_NETS,
        &["exhaustive", "operands", "good", "lists", "doubling", "pairing"], answer),
    stand_in("counts the source's kinds for the doubled", figures::SOURCE_KINDS,
        &["exhaustive", "operands", "good", "lists", "doubling", "pairing"], answer),
    stand_in("sizes more than 8,192 nets", figures::NO_LIMIT,
        &["large", "lists", "doubling"], answer),
    stand_in("tries the doubled nets before the counts", figures::LIMIT_FIRST,
        &["damaged"], answer),
    stand_in("counts one MUX for two", figures::ONE_MUX,
        &["good", "lists", "doubling", "pairing", "two_runs"], answer),
    stand_in("takes 8 bits of a kind", figures::NARROW_KIND,
        &["exhaustive", "operands", "good", "lists", "doubling"], answer),
    stand_in("writes into the image while it counts", figures::WRITES_THE_IMAGE,
        &["exhaustive", "operands", "good", "damaged", "noise", "pairing"], image),
    stand_in("fills 4 with 0 alone", static_rules::ONLY_0_FOR_4,
        &["static_gates", "static_runs", "lists", "filling"], anything),
    stand_in("fills 6 with 2 alone", static_rules::ONLY_2_FOR_6,
        &["static_gates", "static_runs", "lists", "filling"], anything),
    stand_in("marks if all fillings mark", static_rules::ALL_MARK,
        &["static_gates", "static_runs", "lists", "filling"], anything),
    stand_in("marks if the first filling marks", static_rules::FIRST_MARKS,
        &["static_gates", "static_runs", "lists", "filling"], anything),
    stand_in("composes a MUX of static gates", static_rules::COMPOSED_MUX,
        &["static_gates", "static_runs", "lists"], anything),
    stand_in("fills a net once for all pins", static_rules::NETS_FILLED,
        &["static_gates", "static_runs", "lists"], anything),
    stand_in("knows no value behind an unknown pin", static_rules::UNKNOWN_BY_ANY_PIN,
        &["static_gates", "static_runs", "lists"], anything),
    stand_in("trusts what is unknown", static_rules::UNKNOWN_IS_TRUSTED,
        &["static_gates", "static_runs", "lists", "filling"], anything),
    stand_in("inverts the lowest bit of 4 and 6", static_rules::INVERTS_UNKNOWN,
        &["static_gates", "static_runs", "lists", "filling"], anything),
    stand_in("takes 4 for marked", static_rules::FLOW_BY_4,
        &["static_gates", "static_runs", "lists"], answer),
    stand_in("wakes a register without a start as 4", waking::WAKES_AS_4,
        &["static_gates", "static_runs", "lists", "filling", "known"], lent_byte),
    stand_in("powers up statically as for runs", static_calls::POWERS_UP_AS_RUNS,
        &["static_gates", "static_runs", "lists", "filling", "known"], lent_byte),
    stand_in("runs statically as it runs", static_calls::RUNS_AS_RUNS,
        &["static_gates", "static_runs", "lent", "lists", "filling", "known"], answer),
    stand_in("takes a count in static calls", static_calls::TAKES_A_COUNT,
        &["exhaustive", "static_gates", "static_runs", "lent", "lists", "filling", "known"],
        answer),
    stand_in("accepts 5", static_calls::ACCEPTS_5, &["lent", "lists", "known"], answer),
    stand_in("tries static bytes before 10", static_calls::BYTES_BEFORE_10,
        &["lent", "lists", "known"], answer),
    stand_in("tries static bytes before 12", static_calls::BYTES_BEFORE_12,
        &["lent", "lists", "known"], answer),
    stand_in("gives 11 and 13 for 18", static_calls::NUMBERS_OF_RUNS,
        &["lent", "lists", "known"], answer),
    stand_in("counts a bad static byte within its row", static_calls::PLACE_IN_ITS_ROW,
        &["lent", "lists"], place),
    stand_in("refuses static bytes and writes", lent_bytes::REFUSED_WRITES_STATIC,
        &["lent", "lists", "known"], refused),
    stand_in("takes 32 bits of a static run's k", order::NARROW_K_STATIC,
        &["lent", "lists", "known"], answer),
    stand_in("says clear of every static run", answers::ALWAYS_CLEAR_STATIC,
        &["static_gates", "static_runs", "lists", "filling", "known"], answer),
    stand_in("stops static outputs at the first flow", cycles::STOPS_AT_FLOW_STATIC,
        &["static_gates", "static_runs", "lists", "known"], lent_byte),
    stand_in("runs statically and keeps the state", cycles::RUN_KEEPS_STATE_STATIC,
        &["static_gates", "static_runs", "lists", "filling", "known"], lent_byte),
];
