//! Verilog, made a netlist of gates by yosys. Nothing is optimised but that cells which nothing reads are left out, since marks depend on the
//! gates.

use crate::failure::{fail, Failure, Outcome};
use std::fs;
use std::io::ErrorKind;
use std::path::{Path, PathBuf};
use std::process::{Command, Stdio};

/// What yosys is told beside the files.
pub struct Verilog<'a> {
    pub files: &'a [PathBuf],
    pub top: Option<&'a str>,
    pub includes: &'a [PathBuf],
    pub defines: &'a [String],
}

/// What yosys made: the netlist in JSON, the files that it read, and what it said on standard error.
pub struct Made {
    pub json: Vec<u8>,
    pub files: Vec<PathBuf>,
    pub said: String,
}

/// Has yosys make a netlist of gates.
pub fn netlist(verilog: &Verilog, work: &Path) -> Outcome<Made> {
    let (json, read) = (work.join("netlist.json"), work.join("read.d"));
    let script = script(verilog, &json)?;
    let mut command = Command::new("yosys");
    command.arg("-q").arg("-E").arg(&read).arg("-p").arg(script);
    command.stdin(Stdio::null());
    let output = command.output().map_err(|error| match error.kind() {
        ErrorKind::NotFound => Failure::new(
            "yosys is not installed, and Verilog is read by it: on Debian and Ubuntu `apt-get install yosys`; \
             or import a netlist in JSON that yosys wrote elsewhere",
        ),
        _ => Failure::new(format!("yosys cannot be started: {error}")),
    })?;
    let said = String::from_utf8_lossy(&output.stderr).trim().to_string();
    if !output.status.success() {
        fail!("yosys turned back: {said}");
    }
    let written = |file: &Path| fs::read(file).map_err(|error| Failure::reading("what yosys wrote", &error));
    Ok(Made {
        json: written(&json)?,
        files: files_read(&String::from_utf8_lossy(&written(&read)?)),
        said,
    })
}

/// The commands that yosys executes.
fn script(verilog: &Verilog, json: &Path) -> Outcome<String> {
    let mut lines = Vec::new();
    let mut read = String::from("read_verilog -icells");
    if verilog.files.iter().any(|file| file.extension().is_some_and(|extension| extension == "sv")) {
        read.push_str(" -sv");
    }
    for folder in verilog.includes {
        read.push_str(&format!(" -I{}", word(&folder.display().to_string())?));
    }
    for define in verilog.defines {
        read.push_str(&format!(" -D{}", word(define)?));
    }
    for file in verilog.files {
        read.push_str(&format!(" {}", quoted(file)?));
    }
    lines.push(read);
    lines.push(match verilog.top {
        Some(top) => format!("hierarchy -check -top {}", word(top)?),
        None => "hierarchy -check -auto-top".to_string(),
    });
    for line in ["proc -noopt", "flatten", "memory", "techmap", "opt_clean"] {
        lines.push(line.to_string());
    }
    lines.push(format!("write_json {}", quoted(json)?));
    Ok(lines.join("\n"))
}

/// A word of a command, which must not end before its end.
fn word(text: &str) -> Outcome<&str> {
    let ends = |letter: char| letter.is_whitespace() || letter.is_control() || matches!(letter, ';' | '"' | '#');
    if text.is_empty() || text.contains(ends) {
        fail!("yosys cannot be told \"{text}\": it has a blank, a quote, a semicolon or a number sign in it");
    }
    Ok(text)
}

/// A file name in quotes.
fn quoted(file: &Path) -> Outcome<String> {
    match file.to_str() {
        Some(name) if !name.contains(|letter: char| letter.is_control() || matches!(letter, '"' | '\\')) => {
            // A name that begins with a dash would be read as an option.
            let name = if name.starts_with('-') { format!("./{name}") } else { name.to_string() };
            Ok(format!("\"{name}\""))
        }
        _ => fail!("yosys cannot be told the file name {}", file.display()),
    }
}

/// The files that yosys read, from the rule for make that it writes, without those of yosys itself.
fn files_read(rule: &str) -> Vec<PathBuf> {
    let mut names = vec![String::new()];
    let mut letters = rule.trim_end().chars();
    while let Some(letter) = letters.next() {
        match letter {
            '\\' => names.last_mut().expect("there is always one").extend(letters.next()),
            ' ' => names.push(String::new()),
            _ => names.last_mut().expect("there is always one").push(letter),
        }
    }
    let read = names.into_iter().skip(1).filter(|name| !name.is_empty());
    read.filter(|name| !name.contains("/share/yosys/")).map(PathBuf::from).collect()
}
