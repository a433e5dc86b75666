//! The conditions on which a call turns back.

use std::fmt;

/// The condition on which a call turned back, each with its number in the
/// specification's table.
///
/// They are tried by rising number, except that nets are tried in turn, each
/// for [`Kind`](Reason::Kind), [`Pin`](Reason::Pin), [`Value`](Reason::Value)
/// and [`UnlistedOperand`](Reason::UnlistedOperand), and that
/// [`StaticByte`](Reason::StaticByte) stands where [`StateByte`](Reason::StateByte)
/// and [`RowByte`](Reason::RowByte) do, and [`StateCount`](Reason::StateCount)
/// directly after the former. Later releases may add numbers.
#[derive(Debug, Clone, Copy, PartialEq, Eq, Hash)]
#[non_exhaustive]
#[repr(u32)]
pub enum Reason {
    /// 1: The image is under 8 bytes.
    ImageTooShort = 1,
    /// 2: N is 0 or above 8,192.
    NetsOutOfRange = 2,
    /// 3: The image's length is not 8 + 7 × N.
    ImageLength = 3,
    /// 4: The kind is above 8. The place is the net.
    Kind = 4,
    /// 5: A pin names no net below its own, or a REG's pin none below N. The bit
    /// [`INVERTED`](crate::kinds::INVERTED) does not count. The place is the net.
    Pin = 5,
    /// 6: A CONST is above 1, a start above 2 or a policy above 1. The place is
    /// the net.
    Value = 6,
    /// 7: An operand that the kind does not list is not 0. The place is the
    /// net.
    UnlistedOperand = 7,
    /// 8: I, R or O is not the number of INPUT, REG or OUT nets.
    Counts = 8,
    /// 9: K is above 4,096.
    TooManyCycles = 9,
    /// 10: The state's length is not R + 2, or that of a static call not R.
    StateLength = 10,
    /// 11: A register's byte in the state is above 3. The place is the index of the
    /// first one.
    StateByte = 11,
    /// 12: The row's length is not I, or that of a run's rows not K × I.
    RowLength = 12,
    /// 13: A row byte, or a record's byte, is above 3. The place is the index of
    /// the first one, counted through all rows of a run or the whole record.
    RowByte = 13,
    /// 14: The net buffer's length is not N, or that of a run's output buffer or
    /// of a record not K × O.
    BufferLength = 14,
    /// 15: The doubled netlist has more than 8,192 nets.
    DoubledTooLarge = 15,
    /// 16: The doubled buffer's length is not that of the doubled image.
    DoubledLength = 16,
    /// 17: The finished doubled image draws one of 1 to 8, and the buffer is
    /// set to 0. No image leads here.
    DoubledRefused = 17,
    /// 18: A state or row byte of a static run is 5 or above 6. The place is the
    /// index of the first one, in the state or, if all bytes of that are codes,
    /// in the rows.
    StaticByte = 18,
    /// 19: The page buffer's length is not that of the pages.
    PageLength = 19,
    /// 20: The last two bytes of the state are not the number of marked registers.
    StateCount = 20,
}

/// Every reason of this release, by rising number.
const REASONS: [Reason; 20] = [
    Reason::ImageTooShort,
    Reason::NetsOutOfRange,
    Reason::ImageLength,
    Reason::Kind,
    Reason::Pin,
    Reason::Value,
    Reason::UnlistedOperand,
    Reason::Counts,
    Reason::TooManyCycles,
    Reason::StateLength,
    Reason::StateByte,
    Reason::RowLength,
    Reason::RowByte,
    Reason::BufferLength,
    Reason::DoubledTooLarge,
    Reason::DoubledLength,
    Reason::DoubledRefused,
    Reason::StaticByte,
    Reason::PageLength,
    Reason::StateCount,
];

impl Reason {
    /// The condition's number in the specification's table.
    #[must_use]
    pub fn number(self) -> u32 {
        self as u32
    }

    /// The reason of a number, or none where this release has no such number.
    pub(crate) fn from_number(number: u32) -> Option<Reason> {
        REASONS.into_iter().find(|reason| reason.number() == number)
    }

    /// What the place of a refusal counts, or none where the place is always 0.
    pub(crate) fn place_word(self) -> Option<&'static str> {
        match self {
            Reason::Kind | Reason::Pin | Reason::Value | Reason::UnlistedOperand => Some("net"),
            Reason::StateByte | Reason::RowByte | Reason::StaticByte => Some("index"),
            _ => None,
        }
    }

    /// The condition in words, as [`Display`](fmt::Display) gives it.
    fn condition(self) -> &'static str {
        match self {
            Reason::ImageTooShort => "the image is under 8 bytes",
            Reason::NetsOutOfRange => "N, the number of nets, is 0 or above 8,192",
            Reason::ImageLength => "the image's length is not 8 + 7 × N",
            Reason::Kind => "the kind is above 8",
            Reason::Pin => "a pin names no net below its own, or a REG's pin none below N",
            Reason::Value => "a CONST is above 1, a start above 2 or a policy above 1",
            Reason::UnlistedOperand => "an operand that the kind does not list is not 0",
            Reason::Counts => "I, R or O is not the number of INPUT, REG or OUT nets",
            Reason::TooManyCycles => "K, the number of cycles, is above 4,096",
            Reason::StateLength => "the state's length is not R + 2 (static call: R)",
            Reason::StateByte => "a register's byte in the state is above 3",
            Reason::RowLength => "the row's length is not I (run: K × I)",
            Reason::RowByte => "a row byte is above 3 (page: a record's byte)",
            Reason::BufferLength => {
                "the net buffer is not N bytes (run: outputs, page: record not K × O)"
            }
            Reason::DoubledTooLarge => "the doubled netlist has more than 8,192 nets",
            Reason::DoubledLength => "the doubled buffer's length is not the doubled image's",
            Reason::DoubledRefused => "the finished doubled image was refused; buffer set to 0",
            Reason::StaticByte => "a state or row byte of a static run is 5 or above 6",
            Reason::PageLength => "the page buffer's length is not that of the pages",
            Reason::StateCount => "the state's count is not the number of marked registers",
        }
    }
}

/// The condition in words.
impl fmt::Display for Reason {
    fn fmt(&self, f: &mut fmt::Formatter<'_>) -> fmt::Result {
        f.write_str(self.condition())
    }
}

#[cfg(test)]
mod tests;
