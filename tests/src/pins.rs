//! Good operands for a net of a given kind.

use crate::listed::{pins_of, setting_of};
use crate::random::Random;
use tracker::kinds::{INVERTED, OUT, REG};
use tracker::Net;

/// How the pins of a netlist are drawn.
#[derive(Clone, Copy)]
pub enum Reach {
    /// Any net below.
    Uniform,
    /// One of the eight nets just below.
    Recent,
    /// One of the nets 0 to 3.
    Low,
    /// The net just below.
    Chain,
    /// One of the above, drawn anew for each pin.
    Mixed,
}

/// How the operands of a netlist are drawn.
#[derive(Clone, Copy)]
pub struct Style {
    reach: Reach,
    /// So many OUTs in 8 are protected.
    protected: usize,
    /// So many pins in 8 are inverted.
    inverted: usize,
}

impl Style {
    pub fn draw(random: &mut Random) -> Style {
        let reaches = [
            Reach::Uniform,
            Reach::Recent,
            Reach::Low,
            Reach::Chain,
            Reach::Mixed,
            Reach::Mixed,
        ];
        Style {
            reach: random.pick(&reaches),
            protected: random.pick(&[0, 1, 4, 4, 8, 8]),
            inverted: random.pick(&[0, 0, 0, 1, 4, 4, 8]),
        }
    }

    /// The pin on a net, inverted or not.
    pub fn pin_on(self, random: &mut Random, net: u16) -> u16 {
        if random.chance(self.inverted, 8) {
            net + INVERTED
        } else {
            net
        }
    }
}

/// A good net of this kind with this number, in a netlist of `size` nets.
pub fn draw_net(random: &mut Random, style: Style, kind: u8, number: usize, size: usize) -> Net {
    let mut net = Net::new(kind, 0, 0, 0);
    for index in 0..pins_of(kind) {
        net.operands[index] = match kind {
            REG => register_pin(random, number, size),
            _ => pin(random, style.reach, number),
        } as u16;
    }
    let pins = &mut net.operands[..pins_of(kind)];
    if pins.len() > 1 && random.chance(1, 12) {
        pins.fill(pins[0]);
    }
    for pin in pins {
        *pin = style.pin_on(random, *pin);
    }
    if let Some((index, most)) = setting_of(kind) {
        net.operands[index] = match kind {
            OUT => u16::from(random.chance(style.protected, 8)),
            _ => random.below(usize::from(most) + 1) as u16,
        };
    }
    net
}

/// A net below a number, which is not 0.
fn pin(random: &mut Random, reach: Reach, number: usize) -> usize {
    match reach {
        Reach::Uniform => random.below(number),
        Reach::Recent => number - 1 - random.below(number.min(8)),
        Reach::Low => random.below(number.min(4)),
        Reach::Chain => number - 1,
        Reach::Mixed => {
            let reaches = [Reach::Uniform, Reach::Recent, Reach::Low, Reach::Chain];
            let reach = random.pick(&reaches);
            pin(random, reach, number)
        }
    }
}

/// Any net for a register, often one of those that are easily got wrong: itself,
/// a later one, the first, the last, or the one next to it.
fn register_pin(random: &mut Random, number: usize, size: usize) -> usize {
    match random.below(10) {
        0 => number,
        1 => size - 1,
        2 => 0,
        3 => (number + 1) % size,
        4 => number.saturating_sub(1),
        5 | 6 => random.between(number, size - 1),
        _ => random.below(size),
    }
}
