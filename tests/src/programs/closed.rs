//! Output that cannot be written: the program ends, although its input goes on
//! for ever. What failed is said on standard error, with the system's reason:
//! a program in Rattle ignores the signal of a broken pipe, which would end it
//! with no message.

use std::fs::OpenOptions;
use std::io::{Read, Write};
use std::process::{ChildStdin, ChildStdout, Command};
use std::thread;

use crate::programs::counter::counter;
use crate::programs::program::{said, wait, Program, SHORT};

/// Gives rows until the program takes no more.
fn give_for_ever(mut input: ChildStdin) {
    while input.write_all(&[0; 1000]).is_ok() {}
}

/// Reads so many bytes of what is printed and then closes the pipe.
fn read_some(output: Option<ChildStdout>, length: usize) {
    if let Some(mut output) = output {
        let mut bytes = vec![0; length];
        output.read_exact(&mut bytes).expect("the first lines");
    }
}

/// Starts the program, reads so many bytes of what it prints, closes the pipe, and
/// waits for the end. The answer is what the program says on standard error; its
/// exit status is of no account.
fn ends_after(mut command: Command, length: usize) -> String {
    let mut child = command.spawn().expect("the program starts");
    let input = child.stdin.take().expect("a pipe for the rows");
    let output = child.stdout.take();
    let writer = thread::spawn(move || give_for_ever(input));
    let reader = thread::spawn(move || read_some(output, length));
    wait(&mut child, SHORT);
    reader.join().expect("the first lines are read");
    writer.join().expect("the rows are given");
    said(&mut child)
}

/// The pipe is closed before anything is read of it, early, and late.
pub fn a_closed_pipe_ends_it(program: &Program) {
    let folder = program.folder(Some(&counter()));
    for length in [0, 1, 100_000] {
        let said = ends_after(program.command(&folder), length);
        assert_eq!(said, "standard output: Broken pipe\n");
        let said = ends_after(program.command_without_signal(&folder), length);
        assert_eq!(said, "standard output: Broken pipe\n");
    }
}

/// The program prints to a device that is always full, which Linux has.
pub fn a_full_device_ends_it(program: &Program) {
    let folder = program.folder(Some(&counter()));
    let full = OpenOptions::new().write(true).open("/dev/full");
    let mut command = program.command(&folder);
    command.stdout(full.expect("the full device is opened"));
    let said = ends_after(command, 0);
    assert_eq!(said, "standard output: No space left on device\n");
}
