//! Starting a program, giving it rows, and waiting for its end.

use std::env;
use std::io::{Read, Write};
use std::path::{Path, PathBuf};
use std::process::{Child, ChildStdin, Command, ExitStatus, Stdio};
use std::thread::{self, sleep};
use std::time::{Duration, Instant};

use crate::programs::folder::Folder;

/// A program that has not ended after so long is taken to be stuck.
pub const LONG: Duration = Duration::from_secs(60);

/// The same for a program that has nothing to wait for.
pub const SHORT: Duration = Duration::from_secs(20);

/// A program, and what the reference prints in its place.
pub struct Program {
    /// Its name among the programs that are built in this repository.
    pub name: &'static str,
    /// The environment variable that names another program.
    pub variable: &'static str,
    /// Where its folders are made.
    pub folders: &'static str,
    /// What the reference prints, by the image and the rows.
    pub reference: fn(&[u8], &[u8]) -> Vec<u8>,
}

impl Program {
    /// The program that the variable names, or else the one that is built in this
    /// repository.
    fn path(&self) -> PathBuf {
        let path = match env::var_os(self.variable) {
            Some(path) => PathBuf::from(path),
            None => Path::new(env!("CARGO_MANIFEST_DIR"))
                .join("../target/bin")
                .join(self.name),
        };
        match path.canonicalize() {
            Ok(path) if path.is_file() => path,
            _ => panic!(
                "There is no file {}: run \"tools/build {}\" first, or set {} to the program.",
                path.display(),
                self.name,
                self.variable
            ),
        }
    }

    /// A new folder for the program, with this net.bin or none.
    pub fn folder(&self, image: Option<&[u8]>) -> Folder {
        Folder::with(self.folders, self.name, image)
    }

    /// The program in a folder, with pipes for its rows, its lines and what it says
    /// on standard error.
    pub fn command(&self, folder: &Folder) -> Command {
        prepared(Command::new(self.path()), folder)
    }

    /// The same, with the signal of a broken pipe ignored, so that the program sees
    /// the error itself.
    pub fn command_without_signal(&self, folder: &Folder) -> Command {
        let mut shell = Command::new("/bin/sh");
        let script = "trap '' PIPE; exec \"$0\"";
        shell.arg("-c").arg(script).arg(self.path());
        prepared(shell, folder)
    }

    /// Runs the program with this net.bin, or none, and these rows.
    pub fn run(&self, image: Option<&[u8]>, rows: &[u8], pieces: Pieces) -> Ended {
        let folder = self.folder(image);
        let mut child = self.command(&folder).spawn().expect("the program starts");
        let input = child.stdin.take().expect("a pipe for the rows");
        let mut output = child.stdout.take().expect("a pipe for the lines");
        thread::scope(|scope| {
            let writer = scope.spawn(|| give(input, rows, pieces));
            let reader = scope.spawn(move || {
                let mut lines = Vec::new();
                output.read_to_end(&mut lines).map(|_| lines)
            });
            let status = wait(&mut child, LONG);
            writer.join().expect("the rows are given");
            let lines = reader.join().expect("the lines are read");
            Ended {
                lines: lines.expect("the lines are read"),
                said: said(&mut child),
                status,
            }
        })
    }
}

fn prepared(mut command: Command, folder: &Folder) -> Command {
    command
        .current_dir(folder.path())
        .stdin(Stdio::piped())
        .stdout(Stdio::piped())
        .stderr(Stdio::piped());
    command
}

/// Waits until the program has ended by itself. If it does not end in time, it
/// is killed and the test fails.
pub fn wait(child: &mut Child, limit: Duration) -> ExitStatus {
    let start = Instant::now();
    let mut pause = Duration::from_micros(100);
    while start.elapsed() < limit {
        if let Some(status) = child.try_wait().expect("the program is waited for") {
            return status;
        }
        sleep(pause);
        pause = (2 * pause).min(Duration::from_millis(10));
    }
    let _ = child.kill();
    let _ = child.wait();
    panic!("the program has not ended by itself");
}

/// What a program that has ended said on standard error.
pub fn said(child: &mut Child) -> String {
    let mut error = child.stderr.take().expect("a pipe for what is said");
    let mut text = String::new();
    error
        .read_to_string(&mut text)
        .expect("what was said is read");
    text
}

/// How the rows are given: so many bytes at a time, and a pause after each
/// piece.
#[derive(Clone, Copy, Debug)]
pub struct Pieces {
    pub size: usize,
    pub pause: Duration,
}

impl Pieces {
    pub fn of(size: usize) -> Pieces {
        Pieces {
            size,
            pause: Duration::ZERO,
        }
    }
}

/// Gives the rows and then ends the input. A program that refuses may end
/// before it has read them, so an error of a write is of no account.
fn give(mut input: ChildStdin, rows: &[u8], pieces: Pieces) {
    for piece in rows.chunks(pieces.size) {
        if input.write_all(piece).and_then(|()| input.flush()).is_err() {
            return;
        }
        if !pieces.pause.is_zero() {
            sleep(pieces.pause);
        }
    }
}

/// The program's lines, what it said on standard error, and its exit status.
pub struct Ended {
    pub lines: Vec<u8>,
    pub said: String,
    pub status: ExitStatus,
}
