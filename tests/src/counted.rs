//! Counts of what was tried of the counts in states.

use std::fmt;

use crate::call::Call;
use crate::coding::number_of;
use crate::name::Name;
use crate::states;
use tracker::{sizes, Sizes};

/// Counts of calls that went well, by the counts in their states.
#[derive(Default)]
pub struct Counted {
    /// Accepted power-ups, steps and runs by the count that they left: 0, up to 255,
    /// more.
    pub left: [[u64; 3]; 3],
    /// Refusals 20 by the count: too small, too large, the right bytes in the wrong
    /// order, and with a byte above 3.
    pub wrong: [u64; 4],
    /// Refusals 10 for the registers alone, 11 where the count is wrong too, 20 where
    /// the length of the rows is wrong too, and 20 where k is 0.
    pub order: [u64; 4],
    /// Refusals 10 of static calls whose state has a count.
    pub in_static: u64,
}

impl Counted {
    /// Counts a call by its answer, and by its state.
    pub fn note(&mut self, image: &[u8], call: &Call, answer: u64) {
        let sizes = match sizes(image) {
            Some(sizes) if call.name.has_state() => sizes,
            _ => return,
        };
        let number = number_of(answer);
        if number == 0 && call.name.has_count() {
            self.note_left(call);
        }
        self.note_order(sizes, call, number);
        if number == 20 && call.state.len() == states::length(sizes.registers) {
            self.note_wrong(call);
        }
    }

    fn note_left(&mut self, call: &Call) {
        let class = match states::count(&call.state) {
            0 => 0,
            1..=255 => 1,
            _ => 2,
        };
        self.left[call.name as usize - Name::PowerUp as usize][class] += 1;
    }

    fn note_wrong(&mut self, call: &Call) {
        let count = states::count(&call.state);
        let right = states::marked(states::registers(&call.state));
        let swapped = count % 256 * 256 + count / 256;
        for (seen, is_so) in self.wrong.iter_mut().zip([
            count < right,
            count > right,
            swapped == right,
            count % 256 > 3 || count / 256 > 3,
        ]) {
            *seen += u64::from(is_so);
        }
    }

    fn note_order(&mut self, sizes: Sizes, call: &Call, number: u64) {
        let length = call.state.len();
        let with_count = states::length(sizes.registers);
        match number {
            10 if !call.name.has_count() => self.in_static += u64::from(length == with_count),
            10 => self.order[0] += u64::from(length == sizes.registers),
            11 => self.order[1] += u64::from(!states::is_counted(&call.state)),
            20 => {
                let k = match call.name {
                    Name::Step => 1,
                    _ => call.k,
                };
                self.order[2] += u64::from(call.rows.len() != k.wrapping_mul(sizes.inputs));
                self.order[3] += u64::from(k == 0);
            }
            _ => {}
        }
    }
}

impl fmt::Display for Counted {
    fn fmt(&self, f: &mut fmt::Formatter) -> fmt::Result {
        let [power_up, step, run] = self.left;
        writeln!(
            f,
            "counts left of 0, up to 255 and more: power-up {power_up:?}, step {step:?}, run {run:?}"
        )?;
        let [small, large, swapped, above] = self.wrong;
        writeln!(
            f,
            "wrong counts: too small {small}, too large {large}, bytes swapped {swapped}, \
             with a byte above 3 {above}"
        )?;
        let [alone, both, rows, none] = self.order;
        write!(
            f,
            "10 for registers alone {alone}, 11 with a wrong count {both}, 20 with wrong rows \
             {rows}, 20 with k = 0 {none}; static states with a count {}",
            self.in_static
        )
    }
}
