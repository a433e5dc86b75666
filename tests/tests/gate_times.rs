//! The script `gate_times`, on lines such as `rt ci` writes.

use std::fs;
use std::path::{Path, PathBuf};
use std::process::{Command, Output};

const SCRIPT: &str = concat!(env!("CARGO_MANIFEST_DIR"), "/gate_times");

/// What `rt ci` says of three crates: one that it proves, with three edits, a
/// program, and one that is not proved, with an edit that is not refused and one
/// that is none.
const LOGS: [(&str, &str); 3] = [
    (
        "gates",
        "note: gates proved (99 s)\nlogic=proved functions=10\nrt: gates proved (12 s)\n",
    ),
    ("cases", "rt: cases proved (102 s)\n"),
    ("tracker", "rt: tracker NOT PROVED (exit 1, 40 s)\n"),
];

#[rustfmt::skip]
const EDITS: [(&str, &str, &str); 5] = [
    ("gates", "other_code", "rt: must-fail gates/other_code: refused, as it must be (first at src/codes.rt:3:9; 7 s)\n"),
    ("gates", "slow", "rt: must-fail gates/slow: refused, as it must be (30 s)\n"),
    ("gates", "wrong_code", "rt: must-fail gates/wrong_code: refused, as it must be (first at src/codes.rt:3:9; 5 s)\n"),
    ("tracker", "kept", "rt: must-fail tracker/kept: NOT REFUSED: the crate is still proved with this edit (8 s)\n"),
    ("tracker", "none", "rt: must-fail tracker/none: BAD EDIT: an 'old:' text is not in src/clock.rt\n"),
];

/// The programs run last, and a later `rt check` proves nothing again.
const REST: &str = "\
rt: cases ran as nobody, and wrote what its file 'stdout' has (1 s)
5 passed, 2 failed
rt: gates proved (unchanged since it was last proved)
";

/// 12 + 102 + 40 is 154, 7 + 30 + 5 is 42, and 42 + 8 is 50.
const TABLE: &str = "                 check   edits seconds longest
gates               12       3      42      30
cases              102       0       0       0
tracker             40       2       8       8
all                154       5      50      30
";

const LIST: &str = "
     30 gates/slow
      8 tracker/kept
      7 gates/other_code
      5 gates/wrong_code
      - tracker/none
";

/// An empty folder for one test.
fn folder(name: &str) -> PathBuf {
    let path = Path::new(env!("CARGO_TARGET_TMPDIR")).join(name);
    let _ = fs::remove_dir_all(&path);
    fs::create_dir_all(&path).expect("a folder is made");
    path
}

/// Writes a file, and the folders above it.
fn write(path: PathBuf, text: &str) {
    fs::create_dir_all(path.parent().expect("a folder")).expect("a folder is made");
    fs::write(path, text).expect("a file is written");
}

/// A repository with the script, in which `rt ci` left these lines.
fn repository(name: &str, logs: &[(&str, &str)], edits: &[(&str, &str, &str)]) -> PathBuf {
    let root = folder(name);
    let script = root.join("tests/gate_times");
    write(script.clone(), "");
    fs::copy(SCRIPT, script).expect("the script is copied");
    let crates = "# All crates.\ngates:\ncases: gates io\n\ntracker: gates\n";
    write(root.join("crates.txt"), crates);
    for (crate_name, text) in logs {
        write(root.join(format!("target/log/{crate_name}.out")), text);
    }
    for (crate_name, edit, text) in edits {
        let path = format!("target/must-fail/{crate_name}/{edit}.out");
        write(root.join(path), text);
    }
    root
}

/// What a script writes, and its exit status. Bash reads the script: a file that a test just wrote cannot be started itself while a
/// process that another test starts at that moment still has it open.
fn run(script: impl AsRef<Path>, arguments: &[&str]) -> (String, String, Option<i32>) {
    let mut command = Command::new("bash");
    command.arg(script.as_ref());
    let Output {
        status,
        stdout,
        stderr,
    } = command.args(arguments).output().expect("the script starts");
    let text = |bytes| String::from_utf8(bytes).expect("what it writes is text");
    (text(stdout), text(stderr), status.code())
}

#[test]
fn a_file_of_what_was_written() {
    let mut lines: String = LOGS.iter().map(|(_, text)| *text).collect();
    lines.extend(EDITS.iter().map(|(_, _, text)| *text));
    let file = folder("gate_times-file").join("said");
    write(file.clone(), &(lines + REST));
    let file = file.to_str().expect("a path in UTF-8");
    assert_eq!(run(SCRIPT, &[file]), (TABLE.into(), "".into(), Some(0)));
    let both = [TABLE, LIST].concat();
    let printed = run(SCRIPT, &["--edits", file]);
    assert_eq!(printed, (both, "".into(), Some(0)));
}

#[test]
fn what_is_left_in_target() {
    let root = repository("gate_times-target", &LOGS, &EDITS);
    let printed = run(root.join("tests/gate_times"), &["--edits"]);
    let both = [TABLE, LIST].concat();
    assert_eq!(printed, (both, "".into(), Some(0)));
}

#[test]
fn a_crate_that_was_not_proved_again() {
    let logs = [(
        "gates",
        "rt: gates proved (unchanged since it was last proved)\n",
    )];
    let root = repository("gate_times-unchanged", &logs, &EDITS[..1]);
    let table = "                 check   edits seconds longest
gates                -       1       7       7
all                  -       1       7       7
";
    let printed = run(root.join("tests/gate_times"), &[]);
    assert_eq!(printed, (table.into(), "".into(), Some(0)));
}

#[test]
fn nothing_to_read() {
    let root = repository("gate_times-nothing", &[], &[]);
    let (printed, said, status) = run(root.join("tests/gate_times"), &[]);
    assert_eq!((printed.as_str(), status), ("", Some(2)));
    assert!(said.starts_with("there is no line of `rt ci` in target/"));
    let (printed, said, status) = run(SCRIPT, &["--all"]);
    assert_eq!((printed.as_str(), status), ("", Some(2)));
    assert!(said.starts_with("usage: "));
}
