//! A harness that compares the compiled tracker with the reference, call by
//! call and byte by byte, and that tries properties of the compiled tracker
//! alone.

mod all;
mod bits;
pub mod bytes;
mod call;
mod calls;
mod case;
mod codes;
pub mod coding;
mod counted;
mod counts;
mod cycles;
mod doubled;
mod drawing;
mod driving;
mod exactness;
mod expecting;
mod failure;
mod families;
pub mod faults;
mod figures;
mod kinds;
mod lent;
pub mod listed;
mod making;
mod name;
pub mod netlists;
mod page_reading;
mod paged;
mod pages;
mod pins;
mod places;
pub mod printing;
pub mod programs;
pub mod random;
mod replay;
pub mod states;
mod tally;
mod unknowns;
mod waking;

pub use bits::Bits;
pub use calls::{Calls, PowerUp, Run, LIBRARY};
pub use counted::Counted;
pub use driving::{run_case, run_family};
pub use exactness::Exactness;
pub use failure::{Failure, Outcome};
pub use families::{named, Family, FAMILIES};
pub use lent::{Spot, WrongByte};
pub use name::Name;
pub use paged::Paged;
pub use tally::Tally;
pub use unknowns::Unknowns;
