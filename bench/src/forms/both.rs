//! Nets and their inverses in one array, so that a pin is the place of what it
//! reads, and there is no branch on its top bit.

use std::mem::MaybeUninit;

use tracker::kinds::INVERTED;
use tracker::MOST_NETS;

/// Where the inverses begin.
pub const INVERSES: usize = INVERTED as usize;

/// How many nets have a byte from the start. An operand b that is a start or a
/// policy names one of them where it is read as if it were a pin.
const SET: usize = 3;

/// The bytes of the nets, and from `INVERSES` on those of their inverses. Nothing is
/// filled that is not used, so that small netlists take little time.
pub struct Both([MaybeUninit<u8>; INVERSES + MOST_NETS]);

impl Both {
    /// An array in which no net has a byte yet.
    #[inline(always)]
    pub fn empty() -> Both {
        Both([MaybeUninit::uninit(); INVERSES + MOST_NETS])
    }

    /// The first nets take 0.
    #[inline(always)]
    pub fn set_first(&mut self) {
        for net in 0..SET {
            // SAFETY: there are more nets than these.
            unsafe { self.put(net, 0) };
        }
    }

    /// A net below 8,192 takes a byte.
    #[inline(always)]
    pub unsafe fn put(&mut self, net: usize, byte: u8) {
        self.put_pair(net, byte, byte ^ 1);
    }

    /// A net below 8,192 takes a byte and its inverse.
    #[inline(always)]
    pub unsafe fn put_pair(&mut self, net: usize, byte: u8, inverse: u8) {
        self.0.get_unchecked_mut(net).write(byte);
        self.0.get_unchecked_mut(INVERSES + net).write(inverse);
    }

    /// What a pin reads. The net that it names has a byte.
    #[inline(always)]
    pub unsafe fn read(&self, pin: usize) -> u8 {
        self.0.get_unchecked(pin).assume_init()
    }

    /// The first place.
    #[inline(always)]
    pub fn as_mut_ptr(&mut self) -> *mut u8 {
        self.0.as_mut_ptr().cast()
    }
}
