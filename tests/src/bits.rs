//! Counts of inverted pins in what was tried, and of the top bit where it was
//! refused.

use crate::coding::{number_of, place_of};
use crate::listed::{limit_of, listed_of, net_of, pins_of, setting_of};
use crate::name::{Name, NAMES};
use tracker::kinds::{CONST, INVERTED, OUT};
use tracker::{Image, Net};

/// Counts of calls that went well, by the top bits in their images.
#[derive(Default)]
pub struct Bits {
    /// Accepted calls, in the order of `Name`, by the kind and the operand of a pin
    /// that is inverted.
    inverted: [[[u64; 3]; 9]; NAMES],
    /// Accepted calls, in the order of `Name`, by the kind of a net, on images in
    /// which no pin is inverted.
    plain: [[u64; 9]; NAMES],
    /// Accepted calls by the kind of an inverted pin that names the highest net
    /// that it may name.
    highest: [u64; 9],
    /// Refusals 5 to 7 by the kind of the net and the bit on its bad operand.
    refused: [[u64; 9]; 3],
}

impl Bits {
    /// Counts a call by its answer. Those that ask for figures are left out.
    pub fn note(&mut self, image: &[u8], name: Name, answer: u64) {
        let image = match Image::of(image) {
            Some(image) => image,
            None => return,
        };
        match number_of(answer) {
            0 if name != Name::DoubledSize && name != Name::DoubledKind => {
                self.note_accepted(image, name);
            }
            number @ 5..=7 => self.note_refused(image, number as usize, place_of(answer)),
            _ => {}
        }
    }

    /// Counts an accepted call. A broken library may accept an image with other
    /// kinds, which is not counted.
    fn note_accepted(&mut self, image: Image, name: Name) {
        if image.kinds().iter().any(|kind| *kind > OUT) {
            return;
        }
        let (mut kinds, mut highest) = ([false; 9], [false; 9]);
        let mut inverted = [[false; 3]; 9];
        for (number, net) in image.nets().enumerate() {
            let kind = usize::from(net.kind);
            let limit = limit_of(net.kind, number, image.sizes().nets);
            kinds[kind] = true;
            for (index, pin) in net.operands[..pins_of(net.kind)].iter().enumerate() {
                let is_inverted = *pin >= INVERTED;
                inverted[kind][index] |= is_inverted;
                highest[kind] |= is_inverted && net_of(*pin) + 1 == limit;
            }
        }
        let is_plain = inverted == [[false; 3]; 9];
        for kind in 0..9 {
            self.highest[kind] += u64::from(highest[kind]);
            self.plain[name as usize][kind] += u64::from(kinds[kind] && is_plain);
            for (index, seen) in inverted[kind].into_iter().enumerate() {
                self.inverted[name as usize][kind][index] += u64::from(seen);
            }
        }
    }

    /// Counts a refusal at a net. A broken library may name a place where there is
    /// no net of the nine kinds, which is not counted.
    fn note_refused(&mut self, image: Image, number: usize, place: usize) {
        let net = match image.nets().nth(place) {
            Some(net) if net.kind <= OUT => net,
            _ => return,
        };
        let bad = match number {
            5 => has_bad_pin(&net, limit_of(net.kind, place, image.sizes().nets)),
            6 => has_bad_setting(&net),
            _ => net.operands[listed_of(net.kind)..].contains(&INVERTED),
        };
        self.refused[number - 5][usize::from(net.kind)] += u64::from(bad);
    }

    /// The smallest number of accepted calls of this name with an inverted pin, of
    /// all kinds and operands that are pins.
    pub fn least_inverted(&self, name: Name) -> u64 {
        let counts = self.inverted[name as usize].iter().zip(CONST..=OUT);
        let pins = counts.flat_map(|(counts, kind)| &counts[..pins_of(kind)]);
        *pins.min().expect("kinds with pins")
    }

    /// The smallest number of accepted calls of this name on an image without
    /// inverted pins, of all kinds that it may have.
    pub fn least_plain(&self, name: Name) -> u64 {
        let counts = self.plain[name as usize].iter();
        *counts.min().expect("nine kinds")
    }

    /// The smallest number of accepted calls with an inverted pin on the highest
    /// net that it may name, of all kinds with pins.
    pub fn least_highest(&self) -> u64 {
        least(&self.highest, |kind| pins_of(kind) > 0)
    }

    /// The smallest number of refusals for the bit on a pin whose net is not below
    /// its limit (5), on a CONST, a start or a policy (6), and on an operand that is
    /// not listed (7), each of all kinds that have such operands.
    pub fn least_refused(&self) -> [u64; 3] {
        let [pins, settings, unlisted] = &self.refused;
        [
            least(pins, |kind| pins_of(kind) > 0),
            least(settings, |kind| setting_of(kind).is_some()),
            least(unlisted, |kind| listed_of(kind) < 3),
        ]
    }
}

/// The smallest of the counts of these kinds.
fn least(counts: &[u64; 9], of: impl Fn(u8) -> bool) -> u64 {
    let counts = counts.iter().zip(CONST..=OUT);
    let counts = counts.filter(|(_, kind)| of(*kind));
    counts.map(|(count, _)| *count).min().expect("some kinds")
}

/// A pin is inverted and names a net that is not below the limit.
fn has_bad_pin(net: &Net, limit: usize) -> bool {
    let pins = &net.operands[..pins_of(net.kind)];
    pins.iter()
        .any(|pin| *pin >= INVERTED && net_of(*pin) >= limit)
}

/// The setting would be good without its top bit.
fn has_bad_setting(net: &Net) -> bool {
    match setting_of(net.kind) {
        Some((index, most)) => {
            let setting = net.operands[index];
            setting >= INVERTED && setting % INVERTED <= most
        }
        None => false,
    }
}
