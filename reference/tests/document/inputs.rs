//! Inputs of the programs that are read in other ways than whole.

use std::io::{self, Read};

/// An input that gives at most `piece` bytes in one read and, before each of
/// them, one read that is interrupted.
pub struct Pieces<'a> {
    bytes: &'a [u8],
    piece: usize,
    interrupt: bool,
}

impl<'a> Pieces<'a> {
    pub fn new(bytes: &'a [u8], piece: usize) -> Pieces<'a> {
        Pieces {
            bytes,
            piece,
            interrupt: true,
        }
    }
}

impl Read for Pieces<'_> {
    fn read(&mut self, buffer: &mut [u8]) -> io::Result<usize> {
        self.interrupt = !self.interrupt;
        if !self.interrupt {
            return Err(io::ErrorKind::Interrupted.into());
        }
        let length = self.piece.min(buffer.len());
        self.bytes.read(&mut buffer[..length])
    }
}

/// An input that must not be read.
pub struct Unread;

impl Read for Unread {
    fn read(&mut self, _: &mut [u8]) -> io::Result<usize> {
        panic!("the input was read");
    }
}
