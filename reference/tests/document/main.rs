//! Tests of the reference against document 01 and requests L1 to L7 of document
//! 02.
//!
//! Every expected value is a line of these documents or is worked out by hand
//! from them, and then a comment says how.

#![forbid(unsafe_code)]

mod cases;
mod checking;
mod codes;
mod counter;
mod cycles;
mod doubled_bytes;
mod doubling;
mod exact_by_hand;
mod exact_marks;
mod gates;
mod images;
mod inputs;
mod inverted_as_not;
mod inverted_checking;
mod inverted_cycles;
mod inverted_doubling;
mod inverted_gates;
mod inverted_groups;
mod largest;
mod lent;
mod limits;
mod listing;
mod order;
mod page_examples;
mod page_reading;
mod page_refusals;
mod page_wrong_readings;
mod pages;
mod pins;
mod program;
mod properties;
mod random;
mod samples;
mod sizes;
mod state_counts;
mod state_refusals;
mod state_wrong_readings;
mod states;
mod static_cycles;
mod static_exact;
mod static_gates;
mod static_properties;
mod static_refusals;
mod static_wrong_readings;
mod table;
mod two_refusals;
mod two_runs;
mod unchanged;
mod unknown;
mod wrong_readings;
