//! The names of nets: those of the wires that they drive.

use super::convert::Convert;
use super::netlist::{source_line, Bit};
use crate::names::{Also, Named};
use std::collections::HashSet;
use tracker::kinds::{INPUT, OUT};

/// A name for a net, from a wire. They are tried in the order of these fields: a name that was given before one that a program made, and
/// names with few parts, and short ones, before others.
#[derive(Debug, PartialEq, Eq, PartialOrd, Ord)]
struct Candidate {
    made: bool,
    parts: usize,
    length: usize,
    name: String,
    net: usize,
    inverted: bool,
    source: Option<String>,
}

/// All names that wires give, best first.
fn candidates(convert: &Convert) -> Vec<Candidate> {
    let mut candidates = Vec::new();
    for (name, wire) in &convert.wiring.module.netnames.0 {
        for (at, bit) in wire.bits.iter().enumerate() {
            let pin = match bit {
                Bit::Net(net) => convert.pins.get(net).copied(),
                Bit::Constant(text) if text == "0" => convert.constant(false),
                Bit::Constant(text) if text == "1" => convert.constant(true),
                Bit::Constant(_) => None,
            };
            let Some(pin) = pin else {
                continue;
            };
            candidates.push(Candidate {
                made: name.starts_with('$'),
                parts: name.matches('.').count(),
                length: name.len(),
                name: wire.bit_name(name, at),
                net: pin.net(),
                inverted: pin.is_inverted(),
                source: source_line(&wire.attributes).map(str::to_string),
            });
        }
    }
    candidates.sort();
    candidates
}

/// Gives each net the best of its names, and answers with all further names that were given.
pub fn name_nets(convert: &mut Convert) -> Vec<Also> {
    let candidates = candidates(convert);
    let nets = &mut convert.sheet.nets;
    let is_port = |net: &&Named| matches!(net.kind, INPUT | OUT);
    let mut taken: HashSet<String> = nets.iter().filter(is_port).filter_map(|net| net.name.clone()).collect();
    let mut also = Vec::new();
    for candidate in candidates {
        let net = &mut nets[candidate.net];
        if net.name.is_none() && !candidate.inverted {
            taken.insert(candidate.name.clone());
            net.name = Some(candidate.name);
        } else if !candidate.made && taken.insert(candidate.name.clone()) {
            also.push(Also {
                net: candidate.net,
                inverted: candidate.inverted,
                name: candidate.name,
                source: candidate.source,
            });
        }
    }
    name_registers(convert);
    also
}

/// Names each REG whose output is another net by that output, and each net that is still without a name by its cell.
fn name_registers(convert: &mut Convert) {
    let wiring = convert.wiring;
    for (&at, held) in &convert.held {
        let shown = match wiring.pin(at, "Q") {
            Ok(Bit::Net(net)) => convert.pins.get(net).copied(),
            _ => None,
        };
        let shown = shown.filter(|shown| shown.net() != held.net());
        let name = shown.and_then(|shown| convert.sheet.nets[shown.net()].name.clone());
        let net = &mut convert.sheet.nets[held.net()];
        if net.name.is_none() {
            let name = name.unwrap_or_else(|| wiring.cell(at).0.to_string());
            net.name = Some(format!("{name}:held"));
        }
    }
}
