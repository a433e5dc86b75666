//! The forms of an interpreter that reads the image in place each cycle. All
//! are built for the plain target, without instructions of newer processors. In
//! all of them nets stand with their inverses, so that an inverted pin costs no
//! more than another.
//!
//! - match: unchecked reads, a match on the kind, formulas on bits, passes for
//!   the verdict, the outputs and the clock. It jumps by the kind, which the
//!   processor cannot foresee where kinds are mixed.
//! - branches: one table of codes for all gates; branches for the other kinds only.
//! - safe: no branch on the kind, in safe code that needs no bounds tests.
//! - entries: the same idea with unchecked reads, four nets to a turn, and the
//!   verdict out of the same walk. This is the best of those without lists.
//! - lists: the library's shape. The nets that are no gates are listed once a run,
//!   and a cycle has one branch a net, whether it is a gate.
//!
//! Tried as well, and not faster than "entries": conditional moves in place of
//! the entries' masks, with one net to a turn and a pass for the verdict; the
//! three operands in one read of eight bytes; a test for the kinds that are no
//! gates, so that pins b and c are not read; one net or eight nets to a turn
//! (eight take a little fewer instructions and no less time); and "safe" with
//! operands that are read byte by byte.

pub mod both;
mod branches;
mod entries;
mod lists;
mod matched;
pub mod passes;
pub mod read;
mod safe;
mod settle;
pub mod table;
mod walk;

use crate::checked::checked;
use crate::peer::Peer;

pub const MATCH: Peer = Peer {
    name: "match",
    run: |call| checked(call, matched::cycles),
};

pub const BRANCHES: Peer = Peer {
    name: "branches",
    run: |call| checked(call, branches::cycles),
};

pub const SAFE: Peer = Peer {
    name: "safe",
    run: |call| checked(call, safe::cycles),
};

pub const ENTRIES: Peer = Peer {
    name: "entries",
    run: |call| checked(call, entries::cycles),
};

pub const LISTS: Peer = Peer {
    name: "lists",
    run: |call| checked(call, lists::cycles),
};

/// All forms.
pub const FORMS: [Peer; 5] = [MATCH, BRANCHES, SAFE, ENTRIES, LISTS];
