//! A reference implementation of the gate-level trust tracker.
//!
//! It is written from document 01, the specification, and requests L1 to L7 of
//! document 02, and follows their formulas literally. Every call checks the
//! image anew and works on a decoded netlist.

#![forbid(unsafe_code)]

mod answers;
mod calls;
mod check;
mod cycle;
mod doubling;
mod gates;
mod image;
mod image_file;
mod lent;
mod listing;
mod netlist;
mod page;
mod pages;
mod size;
mod state;
mod static_calls;
mod static_gates;

pub use answers::{FirstFlow, Refusal, Verdict};
pub use calls::{power_up, run, step};
pub use check::{check, MOST_NETS};
pub use doubling::double;
pub use gates::{and_byte, mux_byte, not_byte, or_byte, xor_byte};
pub use image::image_length;
pub use image_file::read_image_file;
pub use lent::MOST_CYCLES;
pub use listing::listing;
pub use netlist::{Kind, Net, Netlist, Pin, Policy, Start};
pub use page::page;
pub use pages::pages;
pub use size::{doubled_size, DoubledSize, GROUP_LENGTHS};
pub use state::{state_length, state_of};
pub use static_calls::{static_power_up, static_run};
pub use static_gates::{and_code, mux_code, not_code, or_code, xor_code};
