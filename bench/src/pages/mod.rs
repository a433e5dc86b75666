//! Pages: the library's call beside peers, all with the same call.
//!
//! - C: a straightforward loop (c/pages.c), output by output and cycle by cycle.
//! - tiles: tuned, in safe Rust: 64 cycles and 64 outputs are read together, and
//!   turned in words of eight bytes.
//! - plain: what one writes first, in safe Rust, by `writeln!`.

mod agree;
mod cases;
mod checked;
mod counting;
#[cfg(c_peer)]
mod in_c;
mod layout;
mod plain;
mod tiles;
mod timing;

pub use counting::some_calls;

use checked::checked;
use tracker::ffi;

#[cfg(other_page)]
use crate::other;

/// What a call is lent.
struct Lent<'a> {
    image: &'a [u8],
    k: usize,
    record: &'a [u8],
    page: &'a mut [u8],
}

/// The library or a peer.
#[derive(Clone, Copy)]
struct Writer {
    name: &'static str,
    page: fn(Lent) -> u64,
}

/// The library and, where they are there, the other build and the peer in C; then
/// the peers in Rust.
const WRITERS: &[Writer] = &[
    Writer {
        name: "library",
        page: |lent| ffi::page(lent.image, lent.k, lent.record, lent.page),
    },
    #[cfg(other_page)]
    Writer {
        name: "other",
        page: |lent| other::page(lent.image, lent.k, lent.record, lent.page),
    },
    #[cfg(c_peer)]
    Writer {
        name: "C",
        page: |lent| checked(lent, in_c::write),
    },
    Writer {
        name: "tiles",
        page: |lent| checked(lent, tiles::write),
    },
    Writer {
        name: "plain",
        page: |lent| checked(lent, plain::write),
    },
];

/// The library or the peer of a name.
fn named(name: &str) -> Writer {
    let writer = WRITERS.iter().find(|writer| writer.name == name);
    *writer.expect("the name of a writer of pages")
}

/// Prints all tables of pages. Nothing is timed before all peers gave what the
/// library gives.
pub fn print_tables() {
    agree::assert_agree_on_small();
    print_legend();
    timing::print_times();
    counting::print_counts();
}

/// What stands in the columns.
fn print_legend() {
    println!("\nlibrary  page: the pages of a record of K cycles and O outputs");
    if cfg!(other_page) {
        println!("other    that of another build (TRACKER_OTHER)");
    }
    match option_env!("CLANG_VERSION") {
        Some(version) => println!("C        a straightforward loop, by {version}, -O3"),
        None => println!("C        left out: there was no clang when this program was built"),
    }
    println!("tiles    tuned, in safe Rust: 64 cycles and 64 outputs read together, then turned");
    println!("plain    the one that one writes first, in safe Rust, by writeln!");
}
