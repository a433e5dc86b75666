use std::io::{self, Write};
pub struct Signal<'a> { pub name: &'a str, pub net: usize, pub inverted: bool }
pub struct Wave<W: Write>(W);
impl<W: Write> Wave<W> {
    pub fn new(out: W, _s: &[Signal], _c: &str) -> io::Result<Wave<W>> { Ok(Wave(out)) }
    pub fn cycle(&mut self, _n: &[u8], _f: bool) -> io::Result<()> { Ok(()) }
    pub fn finish(self) -> io::Result<W> { Ok(self.0) }
}
