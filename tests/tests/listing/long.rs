//! A listing of two million cycles, whose lines are made one after another.

use crate::PROGRAM;
use tests::programs::{many_cycles_in_little_memory, register_after, Expected, Rows, CYCLES};

/// The lines of the counter.
struct Lines {
    rows: Rows,
    cycle: u64,
    register: u8,
}

impl Expected for Lines {
    fn cycle(&self) -> u64 {
        self.cycle
    }

    fn make(&mut self) -> Vec<u8> {
        let (cycle, byte) = (self.cycle, self.register);
        let line = match byte {
            _ if cycle > CYCLES => String::new(),
            _ if cycle == CYCLES => format!("end {cycle}\n"),
            2 | 3 => format!("{cycle} {byte} flow 5\n"),
            _ => format!("{cycle} {byte} clear\n"),
        };
        self.register = register_after(byte, self.rows.take());
        self.cycle += 1;
        line.into_bytes()
    }
}

#[test]
fn two_million_cycles_in_little_memory() {
    let lines = Lines {
        rows: Rows::start(),
        cycle: 0,
        register: 0,
    };
    many_cycles_in_little_memory(&PROGRAM, lines);
}
