//! What drives each net of a module, and what reads it; which cells are gates, registers, or nothing that an image can hold.

use super::flops::{flop, Asynchronous, Flop};
use super::gates;
use super::netlist::{has_attribute, source_line, Bit, Cell, Design, Module};
use super::sheet::Site;
use crate::failure::{fail, Outcome};
use std::collections::HashMap;

/// What a cell is to an image.
#[derive(Debug, Clone, Copy)]
pub enum Role {
    /// A gate, with the pins that it reads.
    Gate(&'static [&'static str]),
    Register(Flop),
    /// It drives nothing, and says something to other tools.
    Silent,
}

/// What drives a net.
#[derive(Debug, Clone, Copy, PartialEq, Eq)]
pub enum Driver {
    /// A bit of an input port.
    Port { port: usize, at: usize },
    /// A cell, by its place in the module.
    Cell(usize),
}

/// A module whose cells are all known, and in which nothing has two drivers.
#[derive(Debug)]
pub struct Wiring<'a> {
    pub module: &'a Module,
    pub roles: Vec<Role>,
    pub drivers: HashMap<u64, Driver>,
}

/// Cells that have no output, and no part in what a netlist does.
const SILENT: [&str; 11] = [
    "$scopeinfo", "$assert", "$assume", "$cover", "$live", "$fair", "$specify2", "$specify3", "$specrule", "$print", "$check",
];

impl<'a> Wiring<'a> {
    /// Looks through a module of a design.
    pub fn of(design: &Design, module: &'a Module) -> Outcome<Wiring<'a>> {
        let mut wiring = Wiring {
            module,
            roles: Vec::new(),
            drivers: HashMap::new(),
        };
        wiring.take_ports()?;
        for at in 0..module.cells.0.len() {
            let role = wiring.role(design, at)?;
            wiring.roles.push(role);
            wiring.take_cell(at, role)?;
        }
        Ok(wiring)
    }

    /// The name, the source line and the cell at a place.
    pub fn cell(&self, at: usize) -> (&'a str, &'a Cell) {
        let (name, cell) = &self.module.cells.0[at];
        (name, cell)
    }

    /// A cell as a site.
    pub fn site(&self, at: usize) -> Site<'a> {
        let (name, cell) = self.cell(at);
        Site {
            name,
            source: source_line(&cell.attributes),
        }
    }

    /// A cell for a message: its source line, its name and its type.
    pub fn told(&self, at: usize) -> String {
        let (name, cell) = self.cell(at);
        format!("{}cell {name} ({})", line(source_line(&cell.attributes)), cell.kind)
    }

    /// A port for a message.
    pub fn told_port(&self, port: usize) -> String {
        let name = &self.module.ports.0[port].0;
        format!("{}port {name}", line(self.port_line(port)))
    }

    /// The source line of a port, which is that of the wire of its name.
    pub fn port_line(&self, port: usize) -> Option<&'a str> {
        let wire = self.module.netnames.get(&self.module.ports.0[port].0)?;
        source_line(&wire.attributes)
    }

    /// The one bit at a pin of a cell.
    pub fn pin(&self, at: usize, pin: &str) -> Outcome<&'a Bit> {
        let (_, cell) = self.cell(at);
        match cell.connections.get(pin).map(Vec::as_slice) {
            Some([bit]) => Ok(bit),
            Some(bits) => fail!("{}: pin {pin} has {} bits, and not one", self.told(at), bits.len()),
            None => fail!("{}: pin {pin} is not connected", self.told(at)),
        }
    }

    /// The pins of a cell that carry data, and not a clock.
    pub fn data_pins(&self, at: usize) -> Vec<&'static str> {
        match self.roles[at] {
            Role::Gate(pins) => pins.to_vec(),
            Role::Register(flop) => {
                let mut pins = vec!["D"];
                pins.extend(flop.enable.map(|level| level.pin));
                pins.extend(flop.reset.map(|reset| reset.level.pin));
                pins.extend(immediate_pins(&flop));
                pins
            }
            Role::Silent => Vec::new(),
        }
    }

    /// The pins that a cell's output depends on within a cycle.
    pub fn immediate_pins(&self, at: usize) -> Vec<&'static str> {
        match self.roles[at] {
            Role::Gate(pins) => pins.to_vec(),
            Role::Register(flop) => immediate_pins(&flop),
            Role::Silent => Vec::new(),
        }
    }

    /// The pin of a cell that drives a net.
    pub fn output_pin(&self, at: usize) -> Option<&'static str> {
        match self.roles[at] {
            Role::Gate(_) => Some("Y"),
            Role::Register(_) => Some("Q"),
            Role::Silent => None,
        }
    }

    /// Takes the bits of all input ports as drivers.
    fn take_ports(&mut self) -> Outcome<()> {
        for (port, (_, declared)) in self.module.ports.0.iter().enumerate() {
            match declared.direction.as_str() {
                "output" => continue,
                "input" => {}
                "inout" => fail!("{}: an inout port; an image has no wire of two directions", self.told_port(port)),
                other => fail!("{}: its direction is {other}", self.told_port(port)),
            }
            for (at, bit) in declared.bits.iter().enumerate() {
                match bit {
                    Bit::Net(net) => self.drive(*net, Driver::Port { port, at })?,
                    Bit::Constant(_) => fail!("{}: an input port that is a constant", self.told_port(port)),
                }
            }
        }
        Ok(())
    }

    /// Takes a cell's output as a driver, and sees that it has no pin but its own.
    fn take_cell(&mut self, at: usize, role: Role) -> Outcome<()> {
        let Some(output) = self.output_pin(at) else {
            return Ok(());
        };
        let mut pins = self.data_pins(at);
        pins.push(output);
        if matches!(role, Role::Register(Flop { rising: Some(_), .. })) {
            pins.push("C");
        }
        for (pin, _) in &self.cell(at).1.connections.0 {
            if !pins.contains(&pin.as_str()) {
                fail!("{}: it has a pin {pin}, which its type does not have", self.told(at));
            }
        }
        for pin in pins {
            self.pin(at, pin)?;
        }
        match self.pin(at, output)? {
            Bit::Net(net) => self.drive(*net, Driver::Cell(at)),
            Bit::Constant(_) => fail!("{}: its output is a constant", self.told(at)),
        }
    }

    /// Takes the driver of a net, which has to be its only one.
    fn drive(&mut self, net: u64, driver: Driver) -> Outcome<()> {
        let told = |driver| match driver {
            Driver::Port { port, .. } => self.told_port(port),
            Driver::Cell(at) => self.told(at),
        };
        if let Some(&other) = self.drivers.get(&net) {
            fail!("{}: it drives net {}, which {} drives too", told(driver), self.net_name(net), told(other));
        }
        self.drivers.insert(net, driver);
        Ok(())
    }

    /// What a cell is, or why an image cannot hold it.
    fn role(&self, design: &Design, at: usize) -> Outcome<Role> {
        let kind = self.cell(at).1.kind.as_str();
        if let Some(pins) = gates::pins(kind) {
            return Ok(Role::Gate(pins));
        }
        if let Some(flop) = flop(kind) {
            return Ok(Role::Register(flop));
        }
        if SILENT.contains(&kind) {
            return Ok(Role::Silent);
        }
        let why = if kind.contains("LATCH") || kind.contains("latch") || kind.starts_with("$_SR_") || kind == "$sr" {
            "a latch; an image has registers on one clock alone"
        } else if kind == "$_TBUF_" || kind == "$tribuf" {
            "a tri-state driver; an image has no such wire"
        } else if kind.starts_with("$mem") {
            "a memory; map it to registers first (yosys: memory_map)"
        } else if design.modules.get(kind).is_some_and(|module| !has_attribute(&module.attributes, "blackbox")) {
            "an instance of another module; flatten the netlist first (yosys: flatten)"
        } else if kind.starts_with('$') {
            "no gate and no register; map it to gates first (yosys: techmap)"
        } else {
            "a black box: nothing says what it does"
        };
        fail!("{}: {why}", self.told(at))
    }

    /// A name of a net for a message: one that was given, if there is one, the shortest.
    pub fn net_name(&self, net: u64) -> String {
        let mut best: Option<(bool, usize, String)> = None;
        for (name, wire) in &self.module.netnames.0 {
            for (at, bit) in wire.bits.iter().enumerate() {
                if *bit == Bit::Net(net) {
                    let name = wire.bit_name(name, at);
                    let found = (name.starts_with('$'), name.len(), name);
                    if best.as_ref().map_or(true, |best| found < *best) {
                        best = Some(found);
                    }
                }
            }
        }
        best.map_or_else(|| format!("number {net}"), |(_, _, name)| name)
    }
}

/// The pins of a register that act without waiting for the clock.
fn immediate_pins(flop: &Flop) -> Vec<&'static str> {
    match flop.asynchronous {
        Asynchronous::None => vec![],
        Asynchronous::Reset(reset) => vec![reset.level.pin],
        Asynchronous::SetReset { set, reset } => vec![set.pin, reset.pin],
        Asynchronous::Load(level) => vec![level.pin, "AD"],
    }
}

/// A source line in front of a message.
pub fn line(source: Option<&str>) -> String {
    source.map_or_else(String::new, |source| format!("{source}: "))
}
