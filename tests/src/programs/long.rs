//! An input of two million cycles: all that is printed, and the memory that it takes.

use std::fs;
use std::io::{Read, Write};
use std::process::{ChildStdin, ChildStdout};
use std::thread;

use crate::programs::compare::first_differing;
use crate::programs::counter::{counter, Rows};
use crate::programs::program::{said, wait, Program, LONG};

pub const CYCLES: u64 = 2_000_000;

/// The memory is looked at after so many cycles, while the program still runs.
const LATE: u64 = CYCLES / 10 * 9;

/// The program must not take more memory than this, in kB.
const MOST_MEMORY: u64 = 16 * 1024;

/// What a program has to print of the counter on `CYCLES` rows, made one part after
/// another.
pub trait Expected: Send {
    /// The cycles of which lines were made.
    fn cycle(&self) -> u64;

    /// Makes the next part, or nothing at the end.
    fn make(&mut self) -> Vec<u8>;
}

/// Gives all rows, one byte each, in pieces of 1,000.
fn give(mut input: ChildStdin) {
    let mut rows = Rows::start();
    for _ in 0..CYCLES / 1000 {
        let piece: Vec<u8> = (0..1000).map(|_| rows.take()).collect();
        if input.write_all(&piece).is_err() {
            return;
        }
    }
}

/// The next bytes that are expected, fewer than `length` only at the end. What is made
/// and not yet taken stays in `made`.
fn take(expected: &mut impl Expected, made: &mut Vec<u8>, length: usize) -> Vec<u8> {
    while made.len() < length {
        let part = expected.make();
        if part.is_empty() {
            break;
        }
        made.extend(part);
    }
    let rest = made.split_off(length.min(made.len()));
    std::mem::replace(made, rest)
}

/// Compares what is printed as it comes. The answer is the most memory that the program
/// had taken late in its input, in kB, or what differs.
fn compare(
    mut output: ChildStdout,
    mut expected: impl Expected,
    process: u32,
) -> Result<Option<u64>, String> {
    let mut made = Vec::new();
    let mut memory = None;
    let mut buffer = vec![0; 65_536];
    loop {
        let length = output
            .read(&mut buffer)
            .map_err(|error| error.to_string())?;
        let part = take(&mut expected, &mut made, length.max(1));
        if buffer[..length] != part[..] {
            let cycle = expected.cycle();
            let text = first_differing(&buffer[..length], &part);
            return Err(format!("shortly before cycle {cycle}, in one read: {text}"));
        }
        if length == 0 {
            return Ok(memory);
        }
        if memory.is_none() && expected.cycle() > LATE {
            memory = most_memory(process);
        }
    }
}

/// The most memory that a process has taken so far, in kB, where the system
/// tells it.
fn most_memory(process: u32) -> Option<u64> {
    let status = fs::read_to_string(format!("/proc/{process}/status")).ok()?;
    let line = status.lines().find(|line| line.starts_with("VmHWM:"))?;
    line.split_whitespace().nth(1)?.parse().ok()
}

/// Gives the program `CYCLES` rows of the counter, and asks that it prints what is
/// expected and takes little memory.
pub fn many_cycles_in_little_memory(program: &Program, expected: impl Expected + 'static) {
    let folder = program.folder(Some(&counter()));
    let mut child = program
        .command(&folder)
        .spawn()
        .expect("the program starts");
    let input = child.stdin.take().expect("a pipe for the rows");
    let output = child.stdout.take().expect("a pipe for the lines");
    let process = child.id();
    let writer = thread::spawn(move || give(input));
    let reader = thread::spawn(move || compare(output, expected, process));
    let status = wait(&mut child, LONG);
    writer.join().expect("the rows are given");
    let memory = match reader.join().expect("the lines are read") {
        Ok(memory) => memory,
        Err(text) => panic!("{text}"),
    };
    assert_eq!(said(&mut child), "");
    assert!(status.success());
    println!("most memory after {LATE} cycles: {memory:?} kB");
    if cfg!(target_os = "linux") {
        assert!(memory.expect("the memory is known") < MOST_MEMORY);
    }
}
