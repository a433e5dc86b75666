//! Making a call of the library on lent buffers.

use crate::call::Call;
use crate::calls::{Calls, PowerUp, Run};
use crate::lent::{Lent, WrongByte};
use crate::name::Name;
use crate::random::Random;

/// A call that was made: its answer, and the buffers as it left them.
pub struct Made {
    pub answer: u64,
    image: Lent,
    state: Lent,
    rows: Lent,
    filled: Lent,
}

/// Lends copies of the call's bytes to the library.
pub fn make(calls: &Calls, image: &[u8], call: &Call, random: &mut Random) -> Made {
    let mut made = Made {
        answer: 0,
        image: Lent::new("image", image, random),
        state: Lent::new("state", &call.state, random),
        rows: Lent::new(call.name.rows(), &call.rows, random),
        filled: Lent::new(call.name.filled(), &call.filled, random),
    };
    made.answer = made.ask(calls, call);
    made
}

/// Asks for a figure of the doubled netlist, which is lent the image alone.
pub fn figure(calls: &Calls, image: &mut Lent, call: &Call) -> u64 {
    let (pointer, length) = (image.pointer(), image.length());
    // The pointer is to as many bytes as the length says.
    unsafe {
        match call.name {
            Name::DoubledKind => (calls.doubled_kind)(pointer, length, call.kind),
            _ => (calls.doubled_size)(pointer, length),
        }
    }
}

/// The function of a power-up or a static power-up.
fn power_up_of(calls: &Calls, name: Name) -> PowerUp {
    match name {
        Name::StaticPowerUp => calls.static_power_up,
        _ => calls.power_up,
    }
}

/// The function of a run or a static run.
fn run_of(calls: &Calls, name: Name) -> Run {
    match name {
        Name::StaticRun => calls.static_run,
        _ => calls.run,
    }
}

impl Made {
    /// Calls the function that the call names.
    fn ask(&mut self, calls: &Calls, call: &Call) -> u64 {
        let (image, image_length) = (self.image.pointer(), self.image.length());
        let (state, state_length) = (self.state.pointer(), self.state.length());
        let (rows, rows_length) = (self.rows.pointer(), self.rows.length());
        let (filled, filled_length) = (self.filled.pointer(), self.filled.length());
        // Each pointer is to as many bytes as the length behind it says, and
        // the buffers are four allocations, so none overlaps another.
        unsafe {
            match call.name {
                Name::Check => (calls.check)(image, image_length),
                Name::PowerUp | Name::StaticPowerUp => {
                    power_up_of(calls, call.name)(image, image_length, state, state_length)
                }
                Name::Step => (calls.step)(
                    image,
                    image_length,
                    state,
                    state_length,
                    rows,
                    rows_length,
                    filled,
                    filled_length,
                ),
                Name::Run | Name::StaticRun => run_of(calls, call.name)(
                    image,
                    image_length,
                    call.k,
                    state,
                    state_length,
                    rows,
                    rows_length,
                    filled,
                    filled_length,
                ),
                Name::DoubledSize | Name::DoubledKind => figure(calls, &mut self.image, call),
                Name::Double => (calls.double)(image, image_length, filled, filled_length),
                Name::Page => (calls.page)(
                    image,
                    image_length,
                    call.k,
                    rows,
                    rows_length,
                    filled,
                    filled_length,
                ),
            }
        }
    }

    /// The state as the call left it.
    pub fn state(&self) -> &[u8] {
        self.state.bytes()
    }

    /// The filled buffer as the call left it.
    pub fn filled(&self) -> &[u8] {
        self.filled.bytes()
    }

    /// The first byte that is not as it should be: image and rows as they were
    /// lent, the state and the filled buffer as given here, and all guards
    /// untouched.
    pub fn wrong_byte(
        &self,
        image: &[u8],
        rows: &[u8],
        state: &[u8],
        filled: &[u8],
    ) -> Option<WrongByte> {
        self.image
            .wrong_byte(image)
            .or_else(|| self.state.wrong_byte(state))
            .or_else(|| self.rows.wrong_byte(rows))
            .or_else(|| self.filled.wrong_byte(filled))
    }
}
