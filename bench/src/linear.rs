//! Checking, the doubled size and doubling at four sizes, to see whether they are
//! linear, for the library and the other build; the doubled size for its peer too.

use std::hint::black_box;
use std::time::Instant;

use crate::aligned::{print, row};
use crate::generate::image;
use crate::libraries::{Library, LIBRARIES};
use crate::mix::Mix;
use crate::rounds::low_and_median;
use crate::sizing;
use tracker::doubled_size;

/// The source nets. The doubled netlist has to stay within 8,192 nets.
const CHECKED: [usize; 4] = [1024, 2048, 4096, 8192];
const DOUBLED: [usize; 4] = [250, 500, 1000, 2000];

/// The seed of the netlists.
const SEED: u64 = 3;

/// How often each size is timed, in turn with the others, and how many calls
/// are timed together.
const ROUNDS: usize = 501;
const CALLS: usize = 8;

/// A size with its source image and the buffer for its doubled image. Where there
/// is no doubled image, since it would be too large, its nets and bytes are 0.
struct Size {
    nets: usize,
    doubled: usize,
    image: Vec<u8>,
    buffer: Vec<u8>,
}

/// A call that is timed, and who makes it: a build of the library, or the peer.
struct Timed {
    name: &'static str,
    call: Box<dyn Fn(&mut Size) -> u64>,
}

/// The bytes of a netlist of n nets.
fn size(nets: usize) -> Size {
    let image = image(Mix::Equal, nets, SEED, true);
    let doubled = doubled_size(&image).map(|size| (size.nets, size.bytes));
    let (doubled, bytes) = doubled.unwrap_or_default();
    Size {
        nets,
        doubled,
        image,
        buffer: vec![0; bytes],
    }
}

/// Times checking.
pub fn print_checking() {
    println!("\ncheck, equal, ns a net: the lowest of {ROUNDS} rounds of {CALLS} calls, in brackets the median");
    let timed = LIBRARIES.iter().map(|library| Timed {
        name: library.name,
        call: Box::new(|size| (library.check)(black_box(&size.image))),
    });
    print_times(CHECKED, timed.collect(), |size| {
        format!("{} nets", size.nets)
    });
}

/// Times the doubled size. The figures are for each source net.
pub fn print_sizing() {
    println!("\ndoubled_size, equal, the same for each source net");
    let mut timed: Vec<Timed> = LIBRARIES.iter().filter_map(sizing_by).collect();
    timed.push(Timed {
        name: sizing::NAME,
        call: Box::new(|size| sizing::answer(&size.image)),
    });
    print_times(DOUBLED, timed, source_and_doubled);
}

/// The doubled size of a build that has it.
fn sizing_by(library: &'static Library) -> Option<Timed> {
    let call = library.doubled_size?;
    Some(Timed {
        name: library.name,
        call: Box::new(move |size| call(black_box(&size.image))),
    })
}

/// Times doubling. The figures are for each source net.
pub fn print_doubling() {
    println!("\ndouble, equal, the same for each source net");
    let timed = LIBRARIES.iter().map(|library| Timed {
        name: library.name,
        call: Box::new(|size| {
            (library.double)(black_box(&size.image), black_box(&mut size.buffer))
        }),
    });
    print_times(DOUBLED, timed.collect(), source_and_doubled);
}

/// A size that is doubled, in print.
fn source_and_doubled(size: &Size) -> String {
    format!("{} nets, {} doubled", size.nets, size.doubled)
}

/// A row for each size, with the lowest and the median time of each call.
fn print_times(sizes: [usize; 4], timed: Vec<Timed>, title: impl Fn(&Size) -> String) {
    let mut sizes = sizes.map(size);
    let times = times(&mut sizes, &timed);
    let mut table = vec![row("", timed.iter().map(|timed| timed.name))];
    for (size, times) in sizes.iter().zip(times) {
        let figures = times.iter().map(|list| low_and_median(list));
        table.push(row(&title(size), figures));
    }
    print(&table);
}

/// The nanoseconds of a call for each net, for each size, call and round.
fn times(sizes: &mut [Size; 4], timed: &[Timed]) -> [Vec<Vec<f64>>; 4] {
    let mut times: [_; 4] = Default::default();
    times.fill(vec![Vec::new(); timed.len()]);
    for _ in 0..ROUNDS {
        for (size, times) in sizes.iter_mut().zip(&mut times) {
            for (timed, times) in timed.iter().zip(times) {
                times.push(nanoseconds(size, &timed.call));
            }
        }
    }
    times
}

/// The nanoseconds of one call for each net.
fn nanoseconds(size: &mut Size, call: impl Fn(&mut Size) -> u64) -> f64 {
    let start = Instant::now();
    for _ in 0..CALLS {
        assert!(black_box(call(size)) >> 32 == 0, "a call was turned back");
    }
    let time = start.elapsed().as_secs_f64();
    time * 1e9 / (size.nets * CALLS) as f64
}
