//! Instructions of each call for each net, for the library and the other build, and
//! of the doubled size for a peer too.

use std::hint::black_box;

use crate::agree::assert_size_agrees;
use crate::aligned::{print, row};
use crate::cases::Bytes;
use crate::count::{counted, valgrind_is_there};
use crate::generate::image;
use crate::libraries::{named, takes, Library, LIBRARIES};
use crate::mix::{Mix, MIXES};
use crate::rounds::NO_FIGURE;
use crate::sizing;
use tracker::doubled_size;

/// The calls, and the nets of the image that each is made on. A run has one
/// cycle, and the doubled netlist has to stay within 8,192 nets.
const CALLS: [(&str, usize); 6] = [
    ("check", 8192),
    ("power_up", 8192),
    ("step", 8192),
    ("run", 8192),
    (SIZE, 1800),
    ("double", 1800),
];

/// The call that has a peer, and that the other build may lack.
const SIZE: &str = "doubled_size";

/// The two numbers of calls.
const FEW: usize = 1;
const MANY: usize = 21;

/// The seeds of the netlists and of the rows.
const NETLIST_SEED: u64 = 3;
const ROW_SEED: u64 = 4;

/// The mode `count call`: the name of a call, a mix, the name of a build or of the
/// peer, and how many calls are made.
pub fn some_calls(name: &str, mix: Mix, maker: &str, times: usize) {
    let nets = CALLS.iter().find(|(call, _)| *call == name);
    let (_, nets) = *nets.expect("the name of a call");
    let image = image(mix, nets, NETLIST_SEED, true);
    let mut bytes = Bytes::with_image(image, 1, ROW_SEED);
    let mut buffer = vec![0; buffer_length(name, &bytes)];
    if name == SIZE {
        assert_size_agrees(&bytes.image);
    }
    for _ in 0..times {
        let answer = match maker {
            sizing::NAME => sizing::answer(&bytes.image),
            _ => one_call(name, maker, &mut bytes, &mut buffer),
        };
        assert!(answer >> 32 == 0, "a call was turned back");
        black_box((answer, &bytes.start, &buffer));
    }
}

/// Who has a call: the builds of the library, and the peer of the doubled size.
fn makers(name: &str) -> Vec<&'static str> {
    let has_call = |library: &&Library| name != SIZE || library.doubled_size.is_some();
    let builds = LIBRARIES.iter().filter(has_call);
    let peer = (name == SIZE).then_some(sizing::NAME);
    builds.map(|library| library.name).chain(peer).collect()
}

/// The bytes that a call wants in the buffer that it fills.
fn buffer_length(name: &str, bytes: &Bytes) -> usize {
    match name {
        "step" => bytes.sizes.nets,
        "run" => bytes.sizes.outputs,
        "double" => doubled_size(&bytes.image).expect("a doubled size").bytes,
        _ => 0,
    }
}

/// A call by a build of the library.
fn one_call(name: &str, build: &str, bytes: &mut Bytes, buffer: &mut [u8]) -> u64 {
    let library = named(build).expect("the name of a build");
    let (image, state, row) = (&bytes.image, &mut bytes.start, &bytes.rows);
    match name {
        "check" => (library.check)(image),
        "power_up" => (library.power_up)(image, state),
        "step" => (library.step)(image, state, row, buffer),
        "run" => (library.run)(image, 1, state, row, buffer),
        SIZE => library.doubled_size.expect("a build with this call")(image),
        _ => (library.double)(image, buffer),
    }
}

/// Counts the instructions of each call.
pub fn print_counts() {
    println!("\ninstructions of a call for each net, for doubled_size and double each source net");
    if !valgrind_is_there() {
        return;
    }
    let mut table = vec![row("", MIXES.map(Mix::name))];
    for (name, nets) in CALLS {
        for maker in makers(name) {
            let of = |mix: Mix| instructions(name, nets, mix, maker);
            let title = format!("{name}, {nets} nets, {maker}");
            table.push(row(&title, MIXES.map(of)));
        }
    }
    print(&table);
}

/// The instructions of one call for each net, in print.
fn instructions(name: &str, nets: usize, mix: Mix, maker: &str) -> String {
    let arguments = ["count", "call", name, mix.name(), maker];
    if !takes(maker, &image(mix, nets, NETLIST_SEED, true)) {
        return NO_FIGURE.to_string();
    }
    match counted(&arguments, FEW, MANY, nets) {
        Some(counts) => format!("{:.1}", counts.instructions),
        None => "failed".to_string(),
    }
}
