//! Pins: how a net is read.

use crate::kinds::INVERTED;
use std::ops::Not;

/// A pin: a net, and whether it is read inverted.
///
/// An inverted pin reads the net's value inverted and its mark as it is. `!`
/// gives the same net, read the other way. The net may be any number, also one
/// that no image has.
///
/// ```
/// use tracker::Pin;
///
/// let pin = Pin::of(3);
/// assert_eq!((pin.net(), pin.is_inverted()), (3, false));
/// assert_eq!(((!pin).net(), (!pin).is_inverted()), (3, true));
/// assert_eq!(!!pin, pin);
/// ```
#[derive(Debug, Clone, Copy, PartialEq, Eq, Hash)]
pub struct Pin {
    net: usize,
    inverted: bool,
}

/// The largest number of a net that an operand has bits for.
const LAST: u16 = INVERTED - 1;

impl Pin {
    /// A net, read as it is.
    #[inline]
    #[must_use]
    pub const fn of(net: usize) -> Pin {
        Pin {
            net,
            inverted: false,
        }
    }

    /// The number of the net.
    #[inline]
    #[must_use]
    pub const fn net(self) -> usize {
        self.net
    }

    /// Whether the net is read inverted.
    #[inline]
    #[must_use]
    pub const fn is_inverted(self) -> bool {
        self.inverted
    }

    /// The pin that an operand of an image holds.
    pub(crate) const fn held(operand: u16) -> Pin {
        Pin {
            net: (operand & LAST) as usize,
            inverted: operand & INVERTED != 0,
        }
    }

    /// The operand of an image that holds this pin. A net above 32,767 is written
    /// as 32,767, which is above every net of a netlist too.
    pub(crate) fn operand(self) -> u16 {
        let net = u16::try_from(self.net).map_or(LAST, |net| net.min(LAST));
        if self.inverted {
            INVERTED + net
        } else {
            net
        }
    }
}

/// The same net, read the other way.
impl Not for Pin {
    type Output = Pin;

    #[inline]
    fn not(self) -> Pin {
        Pin {
            net: self.net,
            inverted: !self.inverted,
        }
    }
}
