//! The one clock of a netlist: the port that all registers take it from, and the edge.

use super::netlist::Bit;
use super::wiring::{Driver, Role, Wiring};
use crate::failure::{fail, Outcome};
use std::collections::HashSet;

/// Where the clock comes from.
#[derive(Debug, Default)]
pub struct ClockTree {
    /// The port, the bit of it, and whether registers take its rising edge; none where there is no register, or none with a clock pin.
    pub root: Option<(usize, usize, bool)>,
    /// The nets that carry the clock: that of the port, and those behind buffers and inverters.
    pub nets: HashSet<u64>,
    /// These buffers and inverters, by their places in the module.
    pub cells: HashSet<usize>,
}

/// Finds the clock, and refuses a second one, a second edge, one that is gated, and one that is used as data.
pub fn clock_of(wiring: &Wiring) -> Outcome<ClockTree> {
    let mut tree = ClockTree::default();
    let mut first: Option<(usize, Option<(usize, usize, bool)>)> = None;
    for at in 0..wiring.roles.len() {
        let Role::Register(flop) = wiring.roles[at] else {
            continue;
        };
        let root = match flop.rising {
            Some(rising) => Some(trace(wiring, &mut tree, at, rising)?),
            None => None,
        };
        match first {
            None => first = Some((at, root)),
            Some((_, other)) if other == root => {}
            Some((other_at, other)) => {
                let (told, other_told) = (told_root(wiring, root), told_root(wiring, other));
                fail!(
                    "{}: it takes {told}, and {} takes {other_told}; an image has one clock and one edge",
                    wiring.told(at),
                    wiring.told(other_at)
                );
            }
        }
    }
    tree.root = first.and_then(|(_, root)| root);
    refuse_as_data(wiring, &tree)?;
    Ok(tree)
}

/// A clock for a message.
fn told_root(wiring: &Wiring, root: Option<(usize, usize, bool)>) -> String {
    match root {
        None => "the clock of all cells".to_string(),
        Some((port, at, rising)) => {
            let (name, declared) = &wiring.module.ports.0[port];
            let edge = if rising { "rising" } else { "falling" };
            format!("the {edge} edge of {}", declared.bit_name(name, at))
        }
    }
}

/// Follows the clock pin of a register back to a port, through buffers and inverters.
fn trace(wiring: &Wiring, tree: &mut ClockTree, register: usize, rising: bool) -> Outcome<(usize, usize, bool)> {
    let mut rising = rising;
    let mut bit = wiring.pin(register, "C")?;
    for _ in 0..=wiring.roles.len() {
        let Bit::Net(net) = bit else {
            fail!("{}: its clock is a constant", wiring.told(register));
        };
        tree.nets.insert(*net);
        match wiring.drivers.get(net) {
            Some(&Driver::Port { port, at }) => return Ok((port, at, rising)),
            None => fail!("{}: its clock {} is driven by nothing", wiring.told(register), wiring.net_name(*net)),
            Some(&Driver::Cell(cell)) => match wiring.cell(cell).1.kind.as_str() {
                "$_BUF_" | "$_NOT_" => {
                    rising ^= wiring.cell(cell).1.kind == "$_NOT_";
                    tree.cells.insert(cell);
                    bit = wiring.pin(cell, "A")?;
                }
                _ => fail!("{}: the clock of {} comes from this cell; it is gated, or made by the netlist itself", wiring.told(cell), wiring.told(register)),
            },
        }
    }
    fail!("{}: its clock goes round in a circle", wiring.told(register))
}

/// Refuses a clock that anything but a clock pin, or a buffer on the way to one, reads.
fn refuse_as_data(wiring: &Wiring, tree: &ClockTree) -> Outcome<()> {
    let carries = |bit: &Bit| matches!(bit, Bit::Net(net) if tree.nets.contains(net));
    for at in 0..wiring.roles.len() {
        if tree.cells.contains(&at) {
            continue;
        }
        for pin in wiring.data_pins(at) {
            if carries(wiring.pin(at, pin)?) {
                fail!("{}: its pin {pin} reads the clock as data", wiring.told(at));
            }
        }
    }
    for (port, (_, declared)) in wiring.module.ports.0.iter().enumerate() {
        if declared.direction == "output" && declared.bits.iter().any(carries) {
            fail!("{}: it passes the clock on as data", wiring.told_port(port));
        }
    }
    Ok(())
}
