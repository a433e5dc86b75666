//! Measurements of the tracker's static library.
//!
//! Without arguments: all tables of the library and its peers. Each can be printed
//! alone: `run` (times), `counts` (instructions and mispredicted branches of a
//! run), `once` (runs of one cycle), `static` (static runs beside plain ones),
//! `calls` (instructions of each call), `linear` (check, doubled_size and double),
//! `pages` (times and instructions of page).
//! `forms`: times and counts of the forms of src/forms. `count ..`: work for
//! valgrind to count. `netlist MIX NETS SEED CYCLES FOLDER` and `listing MIX NETS
//! SEED ROWS FOLDER`: files for the hardware tools.

mod accepted;
mod agree;
mod aligned;
mod call;
mod calls;
mod cases;
mod check;
mod checked;
mod count;
mod counting;
mod decoded;
mod doubled;
mod forms;
mod generate;
mod hardware;
#[cfg(c_peer)]
mod in_c;
mod inverting;
mod libraries;
mod limits;
mod linear;
mod listings;
mod mix;
mod once;
#[cfg(other)]
mod other;
mod pages;
mod peer;
mod peers;
mod pins;
mod plain;
mod random;
mod real;
mod repeated;
mod rounds;
mod running;
mod sizing;
mod state;
mod statics;
mod verilog;

use std::env;
use std::path::Path;
use std::process;

use agree::{assert_agree_on_small, assert_sizes_agree};
use forms::FORMS;
use mix::Mix;
use peers::PEERS;

const USAGE: &str =
    "usage: bench [run | counts | once | static | calls | linear | pages | forms | \
    netlist MIX NETS SEED CYCLES FOLDER | listing MIX NETS SEED ROWS FOLDER]";

/// The tables of the library and its peers.
const TABLES: [&str; 7] = [
    "run", "counts", "once", "static", "calls", "linear", "pages",
];

fn main() {
    let arguments: Vec<String> = env::args().skip(1).collect();
    let words: Vec<&str> = arguments.iter().map(String::as_str).collect();
    match words[..] {
        [] => print_tables(&TABLES),
        [table] if TABLES.contains(&table) => print_tables(&[table]),
        ["forms"] => print_forms(),
        ["count", ref what @ ..] => count(what),
        [files @ ("netlist" | "listing"), mix, nets, seed, rows, folder] => {
            let write = match files {
                "netlist" => hardware::write_files,
                _ => listings::write_files,
            };
            let (mix, nets, seed) = (named_mix(mix), number(nets), number(seed) as u64);
            let written = write(mix, nets, seed, number(rows), Path::new(folder));
            written.unwrap_or_else(|error| fail(&error.to_string()));
        }
        _ => fail(USAGE),
    }
}

/// Prints some tables. Nothing is timed before all peers gave what the library gives.
fn print_tables(tables: &[&str]) {
    let all = peers::all();
    assert_agree_on_small(&all);
    assert_sizes_agree();
    peers::print_legend();
    for table in tables {
        match *table {
            "run" => running::print_times(&all),
            "counts" => counting::print_counts(&all),
            "once" => {
                once::print_times(PEERS);
                once::print_counts(PEERS);
            }
            "static" => statics::print_tables(),
            "calls" => calls::print_counts(),
            "pages" => pages::print_tables(),
            _ => {
                linear::print_checking();
                linear::print_sizing();
                linear::print_doubling();
            }
        }
    }
}

/// The library and the forms of an interpreter that reads the image in place.
fn print_forms() {
    let mut peers = vec![PEERS[0]];
    peers.extend(FORMS);
    assert_agree_on_small(&peers);
    running::print_times(&peers);
    counting::print_counts(&peers);
}

/// The mode `count`: work that valgrind counts. The last word says how much.
fn count(words: &[&str]) {
    match *words {
        ["run", case, peer, k] => counting::one_run(number(case), peer, number(k)),
        ["once", mix, nets, peer, times] => {
            once::some_calls(named_mix(mix), number(nets), peer, number(times));
        }
        ["static", case, peer, k] => statics::one_run(number(case), peer, number(k)),
        ["static_once", mix, nets, peer, times] => {
            statics::some_calls(named_mix(mix), number(nets), peer, number(times));
        }
        ["call", name, mix, library, times] => {
            calls::some_calls(name, named_mix(mix), library, number(times));
        }
        ["pages", case, writer, times] => {
            pages::some_calls(number(case), writer, number(times));
        }
        _ => fail(USAGE),
    }
}

/// A mix among the arguments.
fn named_mix(word: &str) -> Mix {
    mix::named(word).unwrap_or_else(|| fail("the mix is equal, gates, live, real or inverted"))
}

/// A number among the arguments.
fn number(word: &str) -> usize {
    match word.parse() {
        Ok(number) => number,
        Err(_) => fail("a number was expected"),
    }
}

fn fail(message: &str) -> ! {
    eprintln!("{message}");
    process::exit(2);
}
