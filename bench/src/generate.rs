//! Random netlists and rows.

use crate::inverting::invert_pins;
use crate::mix::{Mix, PROTECTED};
use crate::random::Random;
use crate::real::real_net;
use tracker::kinds::{CONST, INPUT, MUX, NOT, OUT, REG};
use tracker::{codes, encode, Net};

/// The nets at the start that are no gates, so that pins have something to name.
const SOURCES: usize = 8;

/// The row bytes in 100 that are marked.
const MARKED: usize = 25;

/// The row codes of a static run in 100 whose value is not known.
const UNKNOWN: usize = 50;

/// An image of n nets. Where `protect` is false no OUT is protected, and else
/// the netlist is the same but for the protected OUTs.
pub fn image(mix: Mix, n: usize, seed: u64, protect: bool) -> Vec<u8> {
    let mut random = Random::new(seed);
    let mut nets = Vec::with_capacity(n);
    let mut unread = Unread::new(n);
    for i in 0..n {
        let mut net = match mix {
            Mix::Real => real_net(&mut random, n, i),
            _ => mixed_net(&mut random, mix, n, i),
        };
        if mix == Mix::Live {
            unread.take_pin(&mut net, i);
        }
        if net.kind == OUT && !protect {
            net.operands[1] = 0;
        }
        nets.push(net);
    }
    if mix == Mix::Inverted {
        invert_pins(&mut nets, seed);
    }
    encode(&nets)
}

/// Net i of n, in a mix in random order.
fn mixed_net(random: &mut Random, mix: Mix, n: usize, i: usize) -> Net {
    let kind = random_kind(random, mix, i);
    let mut pin = |limit: usize| random.below(limit) as u16;
    let (a, b, c) = match kind {
        CONST => (pin(2), 0, 0),
        INPUT => (0, 0, 0),
        REG => (pin(n), pin(3), 0),
        NOT => (pin(i), 0, 0),
        MUX => (pin(i), pin(i), pin(i)),
        OUT => (pin(i), u16::from(random.chance(PROTECTED)), 0),
        _ => (pin(i), pin(i), 0),
    };
    Net::new(kind, a, b, c)
}

/// The kind of net i. Net 0 is an INPUT.
fn random_kind(random: &mut Random, mix: Mix, i: usize) -> u8 {
    if i == 0 {
        return INPUT;
    }
    if i < SOURCES {
        return random.below(3) as u8;
    }
    match mix {
        Mix::Equal | Mix::Inverted => random.below(9) as u8,
        _ if random.chance(85) => NOT + random.below(6) as u8,
        Mix::Live => INPUT + random.below(2) as u8,
        _ => random.below(3) as u8,
    }
}

/// The nets that nothing reads yet.
struct Unread {
    read: Vec<bool>,
    oldest: usize,
}

impl Unread {
    fn new(n: usize) -> Unread {
        Unread {
            read: vec![false; n],
            oldest: 0,
        }
    }

    /// Pin a of a gate or OUT becomes the oldest net below i that is unread.
    fn take_pin(&mut self, net: &mut Net, i: usize) {
        if net.kind < NOT {
            return;
        }
        while self.oldest < i && self.read[self.oldest] {
            self.oldest += 1;
        }
        if self.oldest < i {
            net.operands[0] = self.oldest as u16;
        }
        for pin in net.operands {
            self.read[usize::from(pin)] = true;
        }
        self.read[i] = net.kind == OUT;
    }
}

/// Row bytes with random values, a quarter of them marked.
pub fn rows(length: usize, seed: u64) -> Vec<u8> {
    let mut random = Random::new(seed);
    let mut byte = || random.below(2) as u8 + 2 * u8::from(random.chance(MARKED));
    (0..length).map(|_| byte()).collect()
}

/// The same row bytes with half of them made unknown, each with its mark, so that a
/// run on the bytes is one of those that a static run on these codes speaks of.
pub fn row_codes(length: usize, seed: u64) -> Vec<u8> {
    let mut random = Random::new(!seed);
    let unknown = |byte: u8| match codes::is_marked(byte) {
        true => codes::UNKNOWN_UNTRUSTED,
        false => codes::UNKNOWN_TRUSTED,
    };
    let bytes = rows(length, seed).into_iter();
    bytes
        .map(|byte| match random.chance(UNKNOWN) {
            true => unknown(byte),
            false => byte,
        })
        .collect()
}
