//! Instructions and mispredicted branches, counted by valgrind's cachegrind where
//! it is there.
//!
//! This program starts itself under valgrind with a mode that makes a number of
//! cycles or calls. The difference of two such numbers leaves out the start of
//! the program and the netlist. Mispredictions are those of cachegrind's own
//! model of a predictor, which is simpler than that of a processor.

use std::env;
use std::ops::{Div, Sub};
use std::process::Command;

/// Valgrind counts each byte that a `rep stosb` sets as an instruction. With these
/// settings the C library fills and copies large buffers by a loop instead.
const LOOPS: &str = "glibc.cpu.x86_rep_stosb_threshold=1000000:\
    glibc.cpu.x86_rep_movsb_threshold=1000000";

/// What was counted.
#[derive(Clone, Copy)]
pub struct Counts {
    pub instructions: f64,
    pub mispredicted: f64,
}

impl Sub for Counts {
    type Output = Counts;

    fn sub(self, less: Counts) -> Counts {
        Counts {
            instructions: self.instructions - less.instructions,
            mispredicted: self.mispredicted - less.mispredicted,
        }
    }
}

impl Div<f64> for Counts {
    type Output = Counts;

    fn div(self, by: f64) -> Counts {
        Counts {
            instructions: self.instructions / by,
            mispredicted: self.mispredicted / by,
        }
    }
}

/// Whether valgrind can be started. Where not, that is printed.
pub fn valgrind_is_there() -> bool {
    let there = Command::new("valgrind").arg("--version").output().is_ok();
    if !there {
        println!("  valgrind is not there, so nothing is counted.");
    }
    there
}

/// The counts for each net of what this program does with some arguments and a
/// number of cycles or calls behind them, by a few and by many of these.
pub fn counted(arguments: &[&str], few: usize, many: usize, nets: usize) -> Option<Counts> {
    let more = total(arguments, many)? - total(arguments, few)?;
    Some(more / (nets * (many - few)) as f64)
}

/// All that this program counts with some arguments and a number behind them, if
/// it comes to its end.
fn total(arguments: &[&str], number: usize) -> Option<Counts> {
    let output = Command::new("valgrind")
        .env("GLIBC_TUNABLES", LOOPS)
        .args(["--tool=cachegrind", "--branch-sim=yes", "--cache-sim=no"])
        .arg("--cachegrind-out-file=/dev/null")
        .arg(env::current_exe().ok()?)
        .args(arguments)
        .arg(number.to_string())
        .output()
        .ok()
        .filter(|output| output.status.success())?;
    let text = String::from_utf8_lossy(&output.stderr).into_owned();
    Some(Counts {
        instructions: figure(&text, "refs:")?,
        mispredicted: figure(&text, "Mispredicts:")?,
    })
}

/// The figure behind a word, whose digits have commas between them.
fn figure(text: &str, word: &str) -> Option<f64> {
    let (_, rest) = text.split_once(word)?;
    rest.split_whitespace()
        .next()?
        .replace(',', "")
        .parse()
        .ok()
}
