//! Static runs: the library's beside its plain run and beside peers, all with the
//! same call.
//!
//! - table: one walk over the nets in a cycle, with unchecked reads and a table of
//!   codes by the kind and three codes, eight places for each pin.
//! - filling: the plain reading, which fills the unknown pins at each gate and works
//!   out each filling by the formulas, in safe Rust.

mod agree;
mod codes;
mod counting;
mod filling;
mod once;
mod running;
mod table;

pub use counting::one_run;
pub use once::some_calls;

use crate::call::Call;
use crate::checked::checked_codes;
use crate::libraries::Run;
use crate::peer::Peer;
use crate::peers;
use tracker::ffi;

#[cfg(other_static)]
use crate::other;

/// The library's static run and, where it has one, that of the other build; then
/// the peers in Rust.
const PEERS: &[Peer] = &[
    Peer {
        name: "static_run",
        run: |call| library_run(ffi::static_run, call),
    },
    #[cfg(other_static)]
    Peer {
        name: "other",
        run: |call| library_run(other::static_run, call),
    },
    Peer {
        name: "table",
        run: |call| checked_codes(call, table::cycles),
    },
    Peer {
        name: "filling",
        run: |call| checked_codes(call, filling::cycles),
    },
];

/// The plain run of the same library, which stands beside them on rows of bytes.
const PLAIN: Peer = Peer {
    name: "run",
    ..peers::PEERS[0]
};

/// A static run by a build of the library.
fn library_run(run: Run, call: Call) -> u64 {
    run(call.image, call.k, call.state, call.rows, call.outputs)
}

/// The peer of a name.
fn named(name: &str) -> Peer {
    let peer = PEERS.iter().find(|peer| peer.name == name);
    *peer.expect("the name of a peer of a static run")
}

/// Prints all tables of static runs. Nothing is timed before all peers gave what the
/// library gives.
pub fn print_tables() {
    agree::assert_agree_on_small();
    print_legend();
    counting::print_counts();
    running::print_times();
    once::print_times();
    once::print_counts();
}

/// What stands in the columns.
fn print_legend() {
    println!("\nstatic_run  the library's static run, half of the row codes unknown");
    println!("run         its plain run on the same netlist, with these codes filled");
    if cfg!(other_static) {
        println!("other       the static run of another build (TRACKER_OTHER)");
    }
    println!("table       one walk in Rust with unchecked reads and a table of codes");
    println!("filling     fills the unknown pins at each gate, by the formulas, in safe Rust");
}
