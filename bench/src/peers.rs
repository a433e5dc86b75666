//! The library and its peers, all with the same call.

use crate::call::Call;
use crate::checked::checked;
use crate::forms::{self, BRANCHES, ENTRIES, LISTS};
use crate::peer::Peer;
use crate::{decoded, libraries, plain};

#[cfg(c_peer)]
use crate::in_c;

/// The library and, where they are there, the other build and the peer in C; then
/// the peers in Rust that are compared with it.
pub const PEERS: &[Peer] = &[
    Peer {
        name: "library",
        run: |call| library_run(0, call),
    },
    #[cfg(other)]
    Peer {
        name: "other",
        run: |call| library_run(1, call),
    },
    #[cfg(c_peer)]
    Peer {
        name: "C",
        run: |call| checked(call, in_c::cycles),
    },
    LISTS,
    BRANCHES,
    ENTRIES,
];

/// Further peers: one that decodes the image first, and the plain interpreter.
const FURTHER: [Peer; 2] = [
    Peer {
        name: "decoded",
        run: |call| checked(call, decoded::cycles),
    },
    Peer {
        name: "plain",
        run: |call| checked(call, plain::cycles),
    },
];

/// The library and all peers.
pub fn all() -> Vec<Peer> {
    PEERS.iter().chain(&FURTHER).copied().collect()
}

/// A run by one of the builds of the library.
fn library_run(build: usize, call: Call) -> u64 {
    let run = libraries::LIBRARIES[build].run;
    run(call.image, call.k, call.state, call.rows, call.outputs)
}

/// The peer or the form of a name.
pub fn named(name: &str) -> Option<Peer> {
    let mut peers = all().into_iter().chain(forms::FORMS);
    peers.find(|peer| peer.name == name)
}

/// What each peer is.
pub fn print_legend() {
    println!("library   the static library (TRACKER_LIBRARY, or target/staticlib)");
    if cfg!(other) {
        println!("other     another build of it (TRACKER_OTHER)");
    }
    match option_env!("CLANG_VERSION") {
        Some(version) => println!("C         the library's shape in C, by {version}, -O3"),
        None => println!("C         left out: there was no clang when this program was built"),
    }
    println!("lists     the library's shape in Rust, with unchecked reads");
    println!(
        "branches  one walk that branches on the kinds, and passes for verdict, outputs and clock"
    );
    println!("entries   the best Rust form without lists: a walk without a branch on the kind, no passes");
    println!("decoded   turns the image into a list of gates first: outside the comparison");
    println!("plain     the interpreter that one writes first, in safe Rust");
    println!("Peers in Rust are built by {}.", env!("RUSTC_VERSION"));
}
