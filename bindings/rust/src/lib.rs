//! A safe wrapper of the static library of the gate-level trust tracker.
//!
//! Since this version the state of [`power_up`], [`step`] and [`run`] has R + 2
//! bytes, where it had R: behind the R register bytes, the last two are the number
//! of marked registers, low byte first. These calls refuse a state of R bytes with
//! 10, and a step and a run one whose last two bytes are wrong with 20. The state of
//! the static calls still has R bytes.
//!
//! A netlist image and a row of input bytes for each clock cycle go in. For
//! every net come out its value and its mark, and a [`Verdict`] on whether an
//! untrusted input has reached a protected output.
//!
//! # Terms
//!
//! - The *image* holds a netlist of N nets, of which I are INPUTs, R are REGs
//!   and O are OUTs. Nets are numbered from 0, and inputs, registers and
//!   outputs are each counted in net order.
//! - A *byte* of an input, a register, a net or an output is value + 2 × mark,
//!   so 0 to 3. Mark 0 is trusted, mark 1 untrusted. A gate is marked exactly if
//!   other values of its marked pins would change its value.
//! - The *state* has a byte for each register and then their *count*, the number of
//!   marked ones in two bytes, which [`marked_registers`] reads. A power-up sets the
//!   count, and every step and run keeps it. Who writes register bytes into a state
//!   writes its count too.
//! - A *row* has a byte for each input.
//! - A *pin* is an operand that names a net, whose byte the gate, the OUT or, at
//!   the clock, the register reads. With the bit [`kinds::INVERTED`] it reads the
//!   net's value inverted and its mark as it is.
//! - A *code* is a byte of a static power-up or a static run: 0 to 3 as above,
//!   [`codes::UNKNOWN_TRUSTED`] or [`codes::UNKNOWN_UNTRUSTED`]. The state of these
//!   calls is a code for each register, without a count.
//! - The *doubled netlist* is a netlist in which values and marks are both
//!   ordinary values, worked out by gates.
//! - A *record* is the K × O output bytes of a run, and a *page* a text that shows
//!   64 cycles of it.
//!
//! # Calls
//!
//! | call | what it does | refusals |
//! |---|---|---|
//! | [`check`] | says whether an image is a netlist | 1 to 8 |
//! | [`power_up`] | sets each register to its start, or to an untrusted 0 where none is given | 1 to 8 and 10 |
//! | [`step`] | takes one cycle | 1 to 8, 10 to 14 and 20 |
//! | [`run`] | takes K cycles | 1 to 14 and 20 |
//! | [`static_power_up`] | sets each register to the code of its start, unknown and untrusted where none is given | 1 to 8 and 10 |
//! | [`static_run`] | takes K cycles on codes, for all values of unknown bits | 1 to 10, 12, 14 and 18 |
//! | [`doubled_size`] | says how big the doubled netlist gets | 1 to 8 and 15 |
//! | [`double`] | writes the doubled netlist | 1 to 8 and 15 to 17 |
//! | [`page`] | writes the pages of a record | 1 to 9, 13, 14 and 19 |
//!
//! Every call checks the image anew and depends on nothing but what it is lent.
//! A call that turns back answers with a [`Refusal`] and has changed no lent
//! byte, except at [`Reason::DoubledRefused`]. Each buffer must have its exact
//! length, for which [`sizes`], [`state_length`], [`doubled_size`] and
//! [`page_length`] help.
//!
//! # Images
//!
//! [`Builder`] builds an image net by net and gives it only if [`check`] accepts
//! it. [`encode`] makes the image of a list of [`Net`]s, with the kinds of
//! [`kinds`]. [`Image`] reads an image back: its sizes, kinds, operands and pins,
//! the numbers of its inputs, registers and outputs, starts and policies.
//! [`protect`] changes the policy of an output.
//!
//! [`encode_with`] takes any sizes, and [`kind_place`] and [`operand_place`] say
//! where a byte stands, for images that are to be refused. None of these but the
//! builder checks a netlist.
//!
//! # Panics
//!
//! The wrapper and the static library are of one release. An answer that the
//! wrapper does not know can come only from a library of another release; each
//! call panics on it, and never gives it the name of another answer.

#![deny(missing_docs)]
#![deny(unsafe_code)]

mod answers;
mod builder;
mod calls;
pub mod codes;
mod doubled_size;
mod encoding;
#[allow(unsafe_code)]
pub mod ffi;
mod image;
pub mod kinds;
mod layout;
mod limits;
mod net;
mod page;
mod pin;
mod policy;
mod reason;
mod refusal;
mod sizes;
mod state;
mod static_calls;
mod verdict;

pub use builder::Builder;
pub use calls::{check, double, doubled_size, power_up, run, step};
pub use doubled_size::DoubledSize;
pub use encoding::{encode, encode_with};
pub use image::Image;
pub use layout::{image_length, kind_place, operand_place};
pub use limits::{MOST_CYCLES, MOST_NETS};
pub use net::Net;
pub use page::{page, page_length};
pub use pin::Pin;
pub use policy::protect;
pub use reason::Reason;
pub use refusal::Refusal;
pub use sizes::{sizes, Sizes};
pub use state::{marked_registers, state_length};
pub use static_calls::{static_power_up, static_run};
pub use verdict::{FirstFlow, Verdict};

/// The README, whose example is compiled and run as a test.
#[doc = include_str!("../README.md")]
#[cfg(doctest)]
pub struct Readme;
