//! A program that waits for rows, and its lines as they come.

use std::io::{BufRead, BufReader, Write};
use std::process::{Child, ChildStdin};
use std::sync::mpsc::{channel, Receiver};
use std::thread;

use crate::programs::folder::Folder;
use crate::programs::program::{said, wait, Program, SHORT};

pub struct Waiting {
    child: Child,
    input: ChildStdin,
    lines: Receiver<String>,
}

impl Waiting {
    pub fn start(program: &Program, folder: &Folder) -> Waiting {
        let mut child = program.command(folder).spawn().expect("the program starts");
        let input = child.stdin.take().expect("a pipe for the rows");
        let output = child.stdout.take().expect("a pipe for the lines");
        let (sender, lines) = channel();
        thread::spawn(move || {
            let mut lines = BufReader::new(output).lines().map_while(Result::ok);
            lines.try_for_each(|line| sender.send(line))
        });
        Waiting {
            child,
            input,
            lines,
        }
    }

    pub fn give(&mut self, bytes: &[u8]) {
        self.input.write_all(bytes).expect("the bytes are taken");
        self.input.flush().expect("the bytes are taken");
    }

    /// The next line. If it does not come in time, the program is killed and the
    /// test fails.
    pub fn line(&mut self) -> String {
        self.lines.recv_timeout(SHORT).unwrap_or_else(|_| {
            let _ = self.child.kill();
            panic!("no line came while the program waits for rows")
        })
    }

    /// Ends the input. The answer is all lines that were not taken, and nothing is
    /// said on standard error.
    pub fn end(self) -> Vec<String> {
        let Waiting {
            mut child,
            input,
            lines,
        } = self;
        drop(input);
        wait(&mut child, SHORT);
        assert_eq!(said(&mut child), "");
        lines.iter().collect()
    }
}
