//! Rows from streams whose reads fail.

use std::fs::{self, File};
use std::io::Write;
use std::os::unix::io::OwnedFd;
use std::os::unix::net::UnixStream;
use std::process::Stdio;

use crate::programs::folder::Folder;
use crate::programs::program::{wait, Program, SHORT};
use tracker::kinds::{INPUT, OUT};
use tracker::{encode, Net};

/// Two inputs, of which the first is shown, protected, by net 2.
pub fn two_inputs() -> Vec<u8> {
    encode(&[
        Net::new(INPUT, 0, 0, 0),
        Net::new(INPUT, 0, 0, 0),
        Net::new(OUT, 0, 1, 0),
    ])
}

/// What the program prints with rows from a stream, and what it says of its failure.
/// What it prints must not be more than a pipe holds.
pub fn from_rows(program: &Program, folder: &Folder, rows: Stdio) -> (String, String) {
    let mut child = program
        .command(folder)
        .stdin(rows)
        .spawn()
        .expect("the program is started");
    wait(&mut child, SHORT);
    let output = child.wait_with_output().expect("its lines are read");
    let text = |bytes| String::from_utf8(bytes).expect("what it writes is text");
    (text(output.stdout), text(output.stderr))
}

/// A stream that has these bytes and fails after them, since it would have to
/// wait for more.
pub fn failing(bytes: &[u8]) -> (UnixStream, Stdio) {
    let (mut ours, its) = UnixStream::pair().expect("two sockets");
    ours.write_all(bytes).expect("the bytes are given");
    its.set_nonblocking(true).expect("reads do not wait");
    (ours, Stdio::from(OwnedFd::from(its)))
}

/// A folder in place of the rows: nothing is printed.
pub fn rows_from_a_folder(program: &Program) {
    let folder = program.folder(Some(&two_inputs()));
    let rows = File::open(folder.path()).expect("the folder is opened");
    let (printed, said) = from_rows(program, &folder, Stdio::from(rows));
    assert_eq!(printed, "");
    assert_eq!(said, "standard input: Is a directory\n");
}

/// A folder of that name can be opened and not read, and counts as 0 bytes.
pub fn a_folder_for_net_bin(program: &Program) {
    let folder = program.folder(None);
    fs::create_dir(folder.path().join("net.bin")).expect("a folder is made");
    let (printed, said) = from_rows(program, &folder, Stdio::null());
    assert_eq!(printed, "refused 1 0\n");
    assert_eq!(said, "net.bin: Is a directory\n");
}
