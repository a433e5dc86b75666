//! `peshawe import`: from Verilog, or a netlist in yosys' JSON, to an image and its names file.

mod clock;
mod convert;
mod flops;
mod gates;
mod naming;
mod netlist;
mod ordered;
mod sheet;
mod starts;
mod wiring;
mod yosys;

use crate::failure::{fail, Failure, Outcome};
use crate::files::{hash, Scratch};
use crate::names::{Clock, Names, Source};
use convert::{convert, Convert};
use netlist::Design;
use std::fs;
use std::path::{Path, PathBuf};
use tracker::{kinds, MOST_NETS};
use wiring::Wiring;

/// What to import.
pub struct Import<'a> {
    pub files: &'a [PathBuf],
    pub top: Option<&'a str>,
    pub includes: &'a [PathBuf],
    pub defines: &'a [String],
    pub undefined: Option<bool>,
}

/// What was imported: the image, its names, the name of the module, and what is to be said of it on standard error.
pub struct Imported {
    pub image: Vec<u8>,
    pub names: Names,
    pub top: String,
    pub notes: Vec<String>,
}

/// Imports a netlist.
pub fn import(import: &Import) -> Outcome<Imported> {
    let is_json = |file: &PathBuf| file.extension().is_some_and(|extension| extension == "json");
    match import.files {
        [file] if is_json(file) => {
            let bytes = fs::read(file).map_err(|error| Failure::reading(file.display(), &error))?;
            from_json(import, &file.display().to_string(), &bytes, sources(&[file.clone()])?)
        }
        files if files.iter().any(is_json) => fail!("import takes one netlist in JSON, or files in Verilog, and not both"),
        _ => from_verilog(import),
    }
}

/// Imports Verilog.
fn from_verilog(import: &Import) -> Outcome<Imported> {
    for file in import.files {
        fs::File::open(file).map_err(|error| Failure::reading(file.display(), &error))?;
    }
    let verilog = yosys::Verilog {
        files: import.files,
        top: import.top,
        includes: import.includes,
        defines: import.defines,
    };
    let work = Scratch::new()?;
    let made = yosys::netlist(&verilog, work.path())?;
    let mut imported = from_json(import, "what yosys wrote", &made.json, sources(&made.files)?)?;
    imported.notes.extend(made.said.lines().map(|line| format!("yosys: {line}")));
    Ok(imported)
}

/// The files with their hashes.
fn sources(files: &[PathBuf]) -> Outcome<Vec<Source>> {
    let source = |file: &PathBuf| {
        let bytes = fs::read(file).map_err(|error| Failure::reading(file.display(), &error))?;
        let file = one_line(&file.display().to_string());
        Ok(Source { hash: hash(&bytes), file })
    };
    files.iter().map(source).collect()
}

/// A text without control characters, of which a line of the names file must have none.
fn one_line(text: &str) -> String {
    text.chars().map(|letter| if letter.is_control() { '?' } else { letter }).collect()
}

/// Imports a netlist in JSON.
fn from_json(import: &Import, file: &str, bytes: &[u8], sources: Vec<Source>) -> Outcome<Imported> {
    let design = Design::read(file, bytes)?;
    let (top, module) = design.top(import.top)?;
    let wiring = Wiring::of(&design, module)?;
    let mut convert = convert(&wiring, import.undefined)?;
    let also = naming::name_nets(&mut convert);
    refuse_size(&convert)?;
    let image = convert.sheet.builder.image();
    let image = image.map_err(|refusal| Failure::new(format!("the image is not accepted: {refusal}")))?;
    let names = Names {
        sources,
        creator: Some(one_line(&design.creator)).filter(|creator| !creator.is_empty()),
        undefined: import.undefined,
        image: hash(&image),
        clock: clock(&convert),
        nets: convert.sheet.nets,
        also,
    };
    refuse_names(&names)?;
    let silent = wiring.roles.iter().filter(|role| matches!(role, wiring::Role::Silent)).count();
    let note = format!("{silent} cells that drive nothing, such as assertions, were left out");
    Ok(Imported {
        image,
        names,
        top: top.to_string(),
        notes: Some(note).filter(|_| silent > 0).into_iter().collect(),
    })
}

/// The clock, by name.
fn clock(convert: &Convert) -> Option<Clock> {
    let (port, at, rising) = convert.clock.root?;
    let (name, declared) = &convert.wiring.module.ports.0[port];
    Some(Clock {
        name: declared.bit_name(name, at),
        rising,
    })
}

/// Refuses a netlist that is too large, or empty, and says how large it is.
fn refuse_size(convert: &Convert) -> Outcome<()> {
    let nets = convert.sheet.builder.len();
    if nets > MOST_NETS {
        let of_kind = |kind| convert.sheet.nets.iter().filter(|net| net.kind == kind).count();
        fail!(
            "the netlist has {nets} nets, and an image holds {MOST_NETS} at the most; {} are inputs, {} registers and {} outputs",
            of_kind(kinds::INPUT),
            of_kind(kinds::REG),
            of_kind(kinds::OUT)
        );
    }
    if nets == 0 {
        fail!("the netlist is empty: it has no port, no gate and no register");
    }
    Ok(())
}

/// Refuses names that a names file cannot hold, and two ports of one name.
fn refuse_names(names: &Names) -> Outcome<()> {
    let of_nets = names.nets.iter().filter_map(|net| net.name.as_deref());
    let all = of_nets.chain(names.also.iter().map(|also| also.name.as_str()));
    for name in all.chain(names.clock.iter().map(|clock| clock.name.as_str())) {
        if name.is_empty() || name == "-" || name.contains(|letter: char| letter.is_whitespace() || letter.is_control()) {
            fail!("a wire has the name {name:?}, which a names file cannot hold");
        }
    }
    for kind in [kinds::INPUT, kinds::OUT] {
        let mut ports = names.of_kind(kind);
        ports.sort();
        if let Some(twice) = ports.windows(2).find(|pair| pair[0] == pair[1]) {
            fail!("two ports have a bit that is called {}", twice[0]);
        }
    }
    Ok(())
}

/// The files that an import writes: the image and the names file of one base name.
pub fn outputs(base: &Path) -> (PathBuf, PathBuf) {
    let with = |extension: &str| {
        let mut name = base.as_os_str().to_os_string();
        name.push(extension);
        PathBuf::from(name)
    };
    (with(".img"), with(".names"))
}
