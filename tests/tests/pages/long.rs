//! The pages of two million cycles, made one after another.

use crate::{line, PROGRAM};
use tests::programs::{many_cycles_in_little_memory, register_after, Expected, Rows, CYCLES};

/// The pages of the counter, whose OUT is net 5.
struct Pages {
    rows: Rows,
    cycle: u64,
    register: u8,
}

impl Expected for Pages {
    fn cycle(&self) -> u64 {
        self.cycle
    }

    fn make(&mut self) -> Vec<u8> {
        if self.cycle == CYCLES {
            return Vec::new();
        }
        let heading = line("cycle", &self.cycle.to_string());
        let mut signs = String::new();
        while self.cycle < CYCLES && signs.len() < 64 {
            signs.push(['0', '1', 'l', 'h'][usize::from(self.register)]);
            self.register = register_after(self.register, self.rows.take());
            self.cycle += 1;
        }
        [heading, line("    5", &signs), String::new()]
            .join("\n")
            .into_bytes()
    }
}

#[test]
fn two_million_cycles_in_little_memory() {
    let pages = Pages {
        rows: Rows::start(),
        cycle: 0,
        register: 0,
    };
    many_cycles_in_little_memory(&PROGRAM, pages);
}
