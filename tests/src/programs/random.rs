//! Random netlists, good and damaged, with random rows in random pieces.

use std::env;
use std::time::Duration;

use crate::bytes::{spoil, tracked};
use crate::faults::{damaged, Fault};
use crate::netlists::mostly_small;
use crate::printing::hex;
use crate::programs::program::{Pieces, Program};
use crate::random::Random;
use tracker::{encode, Net, Sizes};

/// What one case gives to the program.
struct Given {
    image: Option<Vec<u8>>,
    rows: Vec<u8>,
    pieces: Pieces,
}

fn draw(program: &Program, seed: u64) -> Given {
    let random = &mut Random::of_case(program.name, seed);
    let nets = mostly_small(random, 20);
    let image = draw_image(random, &nets);
    let rows = draw_rows(random, Sizes::of(&nets).inputs);
    let pieces = Pieces {
        size: random.pick(&[1, 7, 4095, rows.len().max(1)]),
        pause: Duration::ZERO,
    };
    Given {
        image,
        rows,
        pieces,
    }
}

/// Mostly the good image. Some are damaged, and sometimes there is none.
fn draw_image(random: &mut Random, nets: &[Net]) -> Option<Vec<u8>> {
    match random.below(10) {
        0 => {
            let number = random.between(1, 8);
            let net = random.below(nets.len());
            Some(damaged(random, nets, &[Fault { number, net }]))
        }
        1 if random.chance(1, 4) => None,
        _ => Some(encode(nets)),
    }
}

/// Some rows. The last may be short, and some bytes may be bad.
fn draw_rows(random: &mut Random, inputs: usize) -> Vec<u8> {
    let most = if inputs > 100 { 20 } else { 300 };
    let cycles = random.between(0, most);
    let rest = match random.below(3) {
        0 => random.below(inputs.max(1)),
        _ => 0,
    };
    let mut rows = tracked(random, cycles * inputs + rest);
    if random.chance(1, 4) {
        spoil(random, &mut rows);
    }
    rows
}

fn report(name: &str, seed: u64, text: &str) -> String {
    format!(
        "\nfamily {name}, seed {seed}\n{text}\nrun it again: TRACKER_CASE={name}:{seed} \
         cargo test --offline -p tests one_case -- --nocapture\n"
    )
}

/// Runs the program in so many cases.
pub fn random_netlists_and_rows(program: &Program, cases: u64) {
    for seed in 0..cases {
        run(program, seed, &draw(program, seed));
    }
}

/// Asks for the reference's lines in one case.
fn run(program: &Program, seed: u64, given: &Given) {
    let difference = program.difference(given.image.as_deref(), &given.rows, given.pieces);
    if let Some(text) = difference {
        panic!("{}", report(program.name, seed, &text));
    }
}

/// Runs the case that TRACKER_CASE names, if it is one of the program.
pub fn one_case(program: &Program) {
    let wanted = env::var("TRACKER_CASE").unwrap_or_default();
    let seed = match wanted.split_once(':') {
        Some((name, seed)) if name == program.name => {
            seed.parse().expect("TRACKER_CASE is name:seed")
        }
        _ => return,
    };
    let given = draw(program, seed);
    match &given.image {
        Some(image) => println!("net.bin {}", hex(image)),
        None => println!("no net.bin"),
    }
    println!("rows {} in {:?}", hex(&given.rows), given.pieces);
    run(program, seed, &given);
    println!("the case has passed");
}
