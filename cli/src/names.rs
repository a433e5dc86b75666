//! The names file: what an image was made of, and the name and source line of each of its nets.
//!
//! It is text, a statement a line, in this order; every statement but `net` and `end` may be missing:
//!
//! ```text
//! peshawe names 1
//! source HASH FILE           a file that the image was made of, with its SHA-256; one line for each file
//! creator TEXT               the program that wrote the netlist, with its version
//! undefined 0|1              what x and z constants were taken as
//! image HASH                 the SHA-256 of the image
//! clock rising|falling NAME  the port of the clock, which is no INPUT, and the edge that registers take
//! net NUMBER KIND NAME LINE  one line for each net, in order; `-` stands for no name and for no source line
//! also NUMBER NAME LINE      a further name of a net; `~NUMBER` where the name is that of its inverse
//! end COUNT                  the number of nets
//! ```

use crate::failure::{fail, Failure, Outcome};
use std::fmt::Write;
use tracker::kinds;

/// The first line.
const HEAD: &str = "peshawe names 1";

/// A file that an image was made of.
#[derive(Debug, Clone, PartialEq, Eq)]
pub struct Source {
    pub hash: String,
    pub file: String,
}

/// The clock of a netlist: the name of its port, and which edge the registers take.
#[derive(Debug, Clone, PartialEq, Eq)]
pub struct Clock {
    pub name: String,
    pub rising: bool,
}

/// One net: its kind, and its name and source line where it has them.
#[derive(Debug, Clone, PartialEq, Eq)]
pub struct Named {
    pub kind: u8,
    pub name: Option<String>,
    pub source: Option<String>,
}

/// A further name of a net, or a name of its inverse.
#[derive(Debug, Clone, PartialEq, Eq)]
pub struct Also {
    pub net: usize,
    pub inverted: bool,
    pub name: String,
    pub source: Option<String>,
}

/// What a names file says.
#[derive(Debug, Clone, Default, PartialEq, Eq)]
pub struct Names {
    pub sources: Vec<Source>,
    pub creator: Option<String>,
    pub undefined: Option<bool>,
    pub image: String,
    pub clock: Option<Clock>,
    pub nets: Vec<Named>,
    pub also: Vec<Also>,
}

impl Names {
    /// The names of the nets of one kind, in order. A net without a name is called by its number, as `net5`.
    pub fn of_kind(&self, kind: u8) -> Vec<String> {
        let numbered = self.nets.iter().enumerate();
        let chosen = numbered.filter(|(_, net)| net.kind == kind);
        chosen.map(|(number, _)| self.name(number)).collect()
    }

    /// The name of a net.
    pub fn name(&self, net: usize) -> String {
        let name = self.nets.get(net).and_then(|net| net.name.clone());
        name.unwrap_or_else(|| format!("net{net}"))
    }

    /// The names of an image that has no names file: every net is called by its number.
    pub fn numbered(kinds: &[u8], image: String) -> Names {
        let nets = kinds.iter().map(|&kind| Named {
            kind,
            name: None,
            source: None,
        });
        Names {
            image,
            nets: nets.collect(),
            ..Names::default()
        }
    }
}

/// The text of a names file.
pub fn write(names: &Names) -> String {
    let mut text = format!("{HEAD}\n");
    let mut put = |line: String| {
        text.push_str(&line);
        text.push('\n');
    };
    for source in &names.sources {
        put(format!("source {} {}", source.hash, source.file));
    }
    if let Some(creator) = &names.creator {
        put(format!("creator {creator}"));
    }
    if let Some(undefined) = names.undefined {
        put(format!("undefined {}", u8::from(undefined)));
    }
    put(format!("image {}", names.image));
    if let Some(clock) = &names.clock {
        let edge = if clock.rising { "rising" } else { "falling" };
        put(format!("clock {edge} {}", clock.name));
    }
    for (number, net) in names.nets.iter().enumerate() {
        let kind = kinds::name(net.kind).unwrap_or("?");
        let (name, source) = (dashed(&net.name), dashed(&net.source));
        put(format!("net {number} {kind} {name} {source}"));
    }
    for also in &names.also {
        let sign = if also.inverted { "~" } else { "" };
        put(format!("also {sign}{} {} {}", also.net, also.name, dashed(&also.source)));
    }
    let _ = writeln!(text, "end {}", names.nets.len());
    text
}

/// A text, or `-` for none.
fn dashed(text: &Option<String>) -> &str {
    text.as_deref().unwrap_or("-")
}

/// A text, or none for `-`.
fn undashed(text: &str) -> Option<String> {
    (text != "-").then(|| text.to_string())
}

/// Reads the text of a names file.
pub fn read(file: &str, text: &str) -> Outcome<Names> {
    let mut lines = text.lines().enumerate();
    if lines.next().map(|(_, line)| line) != Some(HEAD) {
        fail!("{file}: no names file: its first line is not \"{HEAD}\"");
    }
    let mut names = Names::default();
    for (at, line) in lines {
        let place = || format!("{file}:{}", at + 1);
        if let Some(count) = line.strip_prefix("end ") {
            let rest = text.lines().count() - (at + 1);
            if count != names.nets.len().to_string() || rest != 0 || !text.ends_with('\n') {
                fail!("{}: the names file is damaged: its end says {count} nets, and there are {}", place(), names.nets.len());
            }
            return Ok(names);
        }
        statement(&mut names, line).ok_or_else(|| Failure::new(format!("{}: the names file is damaged here", place())))?;
    }
    fail!("{file}: the names file is cut off: it has no last line \"end\"")
}

/// Takes one line, or none where it is not a statement.
fn statement(names: &mut Names, line: &str) -> Option<()> {
    let (word, rest) = line.split_once(' ')?;
    match word {
        "source" => {
            let (hash, file) = rest.split_once(' ')?;
            names.sources.push(Source { hash: hash.to_string(), file: file.to_string() });
        }
        "creator" => names.creator = Some(rest.to_string()),
        "undefined" => names.undefined = Some(bit(rest)?),
        "image" => names.image = rest.to_string(),
        "clock" => {
            let (edge, name) = rest.split_once(' ')?;
            let rising = match edge {
                "rising" => true,
                "falling" => false,
                _ => return None,
            };
            names.clock = Some(Clock { name: name.to_string(), rising });
        }
        "net" => names.nets.push(net(names.nets.len(), rest)?),
        "also" => {
            let also = also(rest)?;
            names.also.push(also);
        }
        _ => return None,
    }
    Some(())
}

/// 0 or 1.
fn bit(text: &str) -> Option<bool> {
    match text {
        "0" => Some(false),
        "1" => Some(true),
        _ => None,
    }
}

/// What stands behind the word `net`. The number has to be the one that follows.
fn net(next: usize, rest: &str) -> Option<Named> {
    let mut words = rest.splitn(4, ' ');
    let (number, kind) = (words.next()?, words.next()?);
    let (name, source) = (words.next()?, words.next()?);
    let kind = (0..=kinds::OUT).find(|&other| kinds::name(other) == Some(kind))?;
    (number == next.to_string()).then(|| Named {
        kind,
        name: undashed(name),
        source: undashed(source),
    })
}

/// What stands behind the word `also`.
fn also(rest: &str) -> Option<Also> {
    let mut words = rest.splitn(3, ' ');
    let (number, name, source) = (words.next()?, words.next()?, words.next()?);
    let plain = number.strip_prefix('~');
    Some(Also {
        net: plain.unwrap_or(number).parse().ok()?,
        inverted: plain.is_some(),
        name: name.to_string(),
        source: undashed(source),
    })
}
