//! The doubled netlist with names: each name for the value, and beside it a name for the mark.

use crate::design::Design;
use crate::failure::{fail, Outcome};
use crate::files::hash;
use crate::judging::refused;
use crate::names::{Named, Names};
use std::collections::HashSet;
use tracker::{double, doubled_size, Image};

/// How many nets the group of each kind has, kinds 0 to 8.
const GROUPS: [usize; 9] = [2, 2, 2, 2, 6, 8, 2, 7, 2];

/// The doubled image and its names.
pub fn doubled(design: &Design) -> Outcome<(Vec<u8>, Names)> {
    let mut image = vec![0; doubled_size(&design.image).map_err(refused)?.bytes];
    double(&design.image, &mut image).map_err(refused)?;
    let Some(read) = Image::of(&image) else {
        fail!("the doubled image cannot be read");
    };
    let suffix = suffix(&design.names);
    let unnamed = |kind: &u8| Named { kind: *kind, name: None, source: None };
    let mut nets: Vec<Named> = read.kinds().iter().map(unnamed).collect();
    let mut first = 0;
    for net in &design.names.nets {
        let last = first + GROUPS[usize::from(net.kind)] - 1;
        if last >= nets.len() {
            fail!("the groups of the doubled netlist are not as long as expected");
        }
        nets[first].name = net.name.clone();
        nets[last].name = net.name.as_deref().map(|name| marked(name, &suffix));
        for at in first..=last {
            nets[at].source = net.source.clone();
        }
        first = last + 1;
    }
    if first != nets.len() {
        fail!("the groups of the doubled netlist are not as long as expected");
    }
    let names = Names {
        image: hash(&image),
        nets,
        also: Vec::new(),
        ..design.names.clone()
    };
    Ok((image, names))
}

/// The name of a mark: the suffix stands in front of an index.
fn marked(name: &str, suffix: &str) -> String {
    match name.rsplit_once('[') {
        Some((base, index)) if index.ends_with(']') => format!("{base}{suffix}[{index}"),
        _ => format!("{name}{suffix}"),
    }
}

/// A suffix with which no name of a mark is a name already.
fn suffix(names: &Names) -> String {
    let all: HashSet<&str> = names.nets.iter().filter_map(|net| net.name.as_deref()).collect();
    let mut suffix = String::from("_mark");
    while all.iter().any(|name| all.contains(marked(name, &suffix).as_str())) {
        suffix.push('_');
    }
    suffix
}
