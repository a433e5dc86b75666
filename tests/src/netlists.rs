//! Random netlists that draw no refusal.

use crate::kinds;
use crate::pins::{draw_net, Style};
use crate::random::Random;
use reference::GROUP_LENGTHS;
use tracker::kinds::{CONST, INPUT, MUX, OUT, REG};
use tracker::{Net, MOST_NETS};

/// A netlist of so many nets, at least 1.
pub fn of_size(random: &mut Random, size: usize) -> Vec<Net> {
    let kinds = kinds::draw(random, size);
    of_kinds(random, &kinds)
}

/// A netlist of nets of these kinds, of which the first is no gate or OUT.
///
/// In some of them net 1 becomes a protected OUT of net 0, whose operand b
/// looks like a pin to net 1 itself.
pub fn of_kinds(random: &mut Random, kinds: &[u8]) -> Vec<Net> {
    let style = Style::draw(random);
    let mut nets = Vec::with_capacity(kinds.len());
    for (number, kind) in kinds.iter().enumerate() {
        nets.push(draw_net(random, style, *kind, number, kinds.len()));
    }
    if nets.len() > 1 && GROUP_LENGTHS[usize::from(nets[1].kind)] == 2 && random.chance(1, 8) {
        nets[1] = Net::new(OUT, style.pin_on(random, 0), 1, 0);
    }
    nets
}

/// A netlist of 1 to some hundred nets, mostly a few.
pub fn small(random: &mut Random) -> Vec<Net> {
    let most = random.pick(&[3, 8, 8, 20, 20, 40, 40, 40, 100, 300]);
    let size = random.between(1, most);
    of_size(random, size)
}

/// A small netlist, or, in one of so many draws, a large one.
pub fn mostly_small(random: &mut Random, draws: usize) -> Vec<Net> {
    if random.chance(1, draws) {
        large(random)
    } else {
        small(random)
    }
}

/// A netlist of some thousand nets, often at or near the largest number, or
/// near a power of 2.
pub fn large(random: &mut Random) -> Vec<Net> {
    let size = match random.below(4) {
        0 => MOST_NETS,
        1 => MOST_NETS - 1 - random.below(3),
        2 => random.pick(&[255, 256, 257, 511, 512, 513, 4095, 4096, 4097]),
        _ => random.between(300, MOST_NETS),
    };
    of_size(random, size)
}

/// A netlist whose doubled netlist has exactly so many nets: any even number
/// from 2 on, or any odd one from 9 on.
pub fn of_doubled_size(random: &mut Random, doubled: usize) -> Vec<Net> {
    let first = random.pick(&[CONST, INPUT, REG]);
    let mut rest = Vec::new();
    let mut left = doubled - 2;
    if left % 2 == 1 {
        rest.push(MUX);
        left -= GROUP_LENGTHS[usize::from(MUX)];
    }
    while left > 0 {
        let kind = random.below(9);
        // Group lengths are even but for a MUX, of which two are taken at once.
        let times = if kind == usize::from(MUX) { 2 } else { 1 };
        if times * GROUP_LENGTHS[kind] <= left {
            rest.extend(vec![kind as u8; times]);
            left -= times * GROUP_LENGTHS[kind];
        }
    }
    shuffle(random, &mut rest);
    rest.insert(0, first);
    of_kinds(random, &rest)
}

/// Puts the items into a random order.
fn shuffle(random: &mut Random, items: &mut [u8]) {
    for index in (1..items.len()).rev() {
        items.swap(index, random.below(index + 1));
    }
}
