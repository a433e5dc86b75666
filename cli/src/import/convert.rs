//! A module as the nets of an image: constants, inputs and registers, then gates behind what they read, and outputs at the end.

use super::clock::{clock_of, ClockTree};
use super::flops::{Asynchronous, Flop, Level, Reset};
use super::gates;
use super::netlist::Bit;
use super::sheet::{Sheet, Site};
use super::starts::starts_of;
use super::wiring::{Driver, Role, Wiring};
use crate::failure::{fail, Outcome};
use std::collections::HashMap;
use tracker::Pin;

/// A module on its way to an image.
pub struct Convert<'a> {
    pub wiring: &'a Wiring<'a>,
    pub clock: ClockTree,
    /// What x and z constants are taken as, if they may be.
    undefined: Option<bool>,
    pub sheet: Sheet,
    /// The two constants, where something reads them.
    constants: [Option<Pin>; 2],
    /// What reads each net of the module that was converted already.
    pub pins: HashMap<u64, Pin>,
    /// The REG of each register, by the register's place in the module. Where something acts without waiting for the clock, its output is
    /// another net.
    pub held: HashMap<usize, Pin>,
}

/// How far the conversion of a cell is.
#[derive(Debug, Clone, Copy, PartialEq, Eq)]
enum Progress {
    New,
    Open,
    Done,
}

/// Converts a module.
pub fn convert<'a>(wiring: &'a Wiring<'a>, undefined: Option<bool>) -> Outcome<Convert<'a>> {
    let mut convert = Convert {
        wiring,
        clock: clock_of(wiring)?,
        undefined,
        sheet: Sheet::default(),
        constants: [None; 2],
        pins: HashMap::new(),
        held: HashMap::new(),
    };
    convert.put_constants()?;
    convert.put_inputs();
    convert.put_registers()?;
    convert.put_gates()?;
    convert.clock_registers()?;
    convert.put_outputs()?;
    Ok(convert)
}

impl Convert<'_> {
    /// The value of a constant, at a place that a message names.
    fn value(&self, text: &str, place: &str) -> Outcome<bool> {
        match (text, self.undefined) {
            ("0", _) => Ok(false),
            ("1", _) => Ok(true),
            ("x" | "z", Some(value)) => Ok(value),
            ("x" | "z", None) => fail!("{place} is the constant {text}; say --undefined 0 or 1 to take it as that"),
            _ => fail!("{place} is the constant {text}, which is no bit"),
        }
    }

    /// Adds the constants that a cell or an output reads.
    fn put_constants(&mut self) -> Outcome<()> {
        let mut read = [false; 2];
        for at in 0..self.wiring.roles.len() {
            for pin in self.wiring.data_pins(at) {
                if let Bit::Constant(text) = self.wiring.pin(at, pin)? {
                    let place = format!("{}: its pin {pin}", self.wiring.told(at));
                    read[usize::from(self.value(text, &place)?)] = true;
                }
            }
        }
        for (port, (name, declared)) in self.wiring.module.ports.0.iter().enumerate() {
            for (at, bit) in declared.bits.iter().enumerate() {
                if let Bit::Constant(text) = bit {
                    let place = format!("{}: {}", self.wiring.told_port(port), declared.bit_name(name, at));
                    read[usize::from(self.value(text, &place)?)] = true;
                }
            }
        }
        for value in [false, true] {
            if read[usize::from(value)] {
                self.constants[usize::from(value)] = Some(self.sheet.constant(value));
            }
        }
        Ok(())
    }

    /// The constant of a value, where there is one.
    pub fn constant(&self, value: bool) -> Option<Pin> {
        self.constants[usize::from(value)]
    }

    /// Adds an INPUT for each bit of an input port, but for the clock.
    fn put_inputs(&mut self) {
        for (port, (name, declared)) in self.wiring.module.ports.0.iter().enumerate() {
            if declared.direction != "input" {
                continue;
            }
            for (at, bit) in declared.bits.iter().enumerate() {
                let is_clock = matches!(self.clock.root, Some((root, bit, _)) if (root, bit) == (port, at));
                if let (Bit::Net(net), false) = (bit, is_clock) {
                    let name = declared.bit_name(name, at);
                    let site = Site { name: &name, source: self.wiring.port_line(port) };
                    let pin = self.sheet.input(&site);
                    self.pins.insert(*net, pin);
                }
            }
        }
    }

    /// Adds a REG for each register.
    fn put_registers(&mut self) -> Outcome<()> {
        let starts = starts_of(self.wiring.module)?;
        for at in 0..self.wiring.roles.len() {
            if let (Role::Register(_), Bit::Net(net)) = (self.wiring.roles[at], self.output(at)?) {
                let pin = self.sheet.register(&self.wiring.site(at), starts.get(net).copied());
                self.held.insert(at, pin);
            }
        }
        Ok(())
    }

    /// The net that a cell drives.
    fn output(&self, at: usize) -> Outcome<&Bit> {
        self.wiring.pin(at, self.wiring.output_pin(at).unwrap_or_default())
    }

    /// Converts all cells, each behind those that it reads within a cycle.
    fn put_gates(&mut self) -> Outcome<()> {
        let mut progress = vec![Progress::New; self.wiring.roles.len()];
        for first in 0..progress.len() {
            if matches!(self.wiring.roles[first], Role::Silent) || self.clock.cells.contains(&first) {
                continue;
            }
            let mut open = Vec::new();
            if progress[first] == Progress::New {
                open.push(first);
            }
            while let Some(&at) = open.last() {
                progress[at] = Progress::Open;
                match self.missing(at, &progress)? {
                    None => {
                        self.put_cell(at)?;
                        progress[at] = Progress::Done;
                        open.pop();
                    }
                    Some(other) if progress[other] == Progress::New => open.push(other),
                    Some(other) => return self.refuse_loop(&open, other),
                }
            }
        }
        Ok(())
    }

    /// A cell that has to be converted before this one.
    fn missing(&self, at: usize, progress: &[Progress]) -> Outcome<Option<usize>> {
        for pin in self.wiring.immediate_pins(at) {
            let Bit::Net(net) = self.wiring.pin(at, pin)? else {
                continue;
            };
            match self.wiring.drivers.get(net) {
                Some(&Driver::Cell(other)) if progress[other] != Progress::Done => return Ok(Some(other)),
                Some(_) => {}
                None => return self.refuse_undriven(at, pin, *net),
            }
        }
        Ok(None)
    }

    /// Refuses a net that a cell reads and nothing drives.
    fn refuse_undriven<T>(&self, at: usize, pin: &str, net: u64) -> Outcome<T> {
        fail!("{}: its pin {pin} reads net {}, which nothing drives", self.wiring.told(at), self.wiring.net_name(net))
    }

    /// Refuses cells that read each other in a circle.
    fn refuse_loop(&self, open: &[usize], back: usize) -> Outcome<()> {
        let from = open.iter().position(|&at| at == back).unwrap_or(0);
        let around: Vec<&str> = open[from..].iter().take(20).map(|&at| self.wiring.cell(at).0).collect();
        fail!("{}: a combinational loop through {} cells: {}", self.wiring.told(back), open.len() - from, around.join(", "))
    }

    /// What reads a pin of a cell, whose driver was converted already.
    fn read(&self, at: usize, pin: &str) -> Outcome<Pin> {
        match self.wiring.pin(at, pin)? {
            Bit::Constant(text) => {
                let value = self.value(text, pin)?;
                match self.constant(value) {
                    Some(constant) => Ok(constant),
                    None => fail!("{}: its pin {pin} is a constant that was not seen", self.wiring.told(at)),
                }
            }
            Bit::Net(net) => match self.pins.get(net) {
                Some(&pin) => Ok(pin),
                None => self.refuse_undriven(at, pin, *net),
            },
        }
    }

    /// Converts one cell: the nets of a gate, or those between a REG and what is read of it.
    fn put_cell(&mut self, at: usize) -> Outcome<()> {
        let pin = match self.wiring.roles[at] {
            Role::Silent => return Ok(()),
            Role::Gate(names) => {
                let pins: Outcome<Vec<Pin>> = names.iter().map(|pin| self.read(at, pin)).collect();
                let site = self.wiring.site(at);
                gates::put(&mut self.sheet, &site, &self.wiring.cell(at).1.kind, &pins?)
            }
            Role::Register(flop) => self.forced(at, &flop, self.held[&at], [None, Some("set")])?,
        };
        if let Bit::Net(net) = *self.output(at)? {
            self.pins.insert(net, pin);
        }
        Ok(())
    }

    /// A register's value with what acts on it without waiting for the clock. The names are those of the last net, and of one before it.
    fn forced(&mut self, at: usize, flop: &Flop, value: Pin, names: [Option<&str>; 2]) -> Outcome<Pin> {
        match flop.asynchronous {
            Asynchronous::None => Ok(value),
            Asynchronous::Reset(reset) => self.reset(at, reset, value, names[0]),
            Asynchronous::SetReset { set, reset } => {
                let set = Reset { level: set, value: true };
                let value = self.reset(at, set, value, names[1])?;
                self.reset(at, Reset { level: reset, value: false }, value, names[0])
            }
            Asynchronous::Load(level) => {
                let active = self.active(at, level)?;
                let data = self.read(at, "AD")?;
                Ok(self.sheet.mux(&self.wiring.site(at), names[0], [value, data, active]))
            }
        }
    }

    /// What is 1 while a pin acts.
    fn active(&self, at: usize, level: Level) -> Outcome<Pin> {
        let pin = self.read(at, level.pin)?;
        Ok(if level.high { pin } else { !pin })
    }

    /// A value, or a constant while a pin acts.
    fn reset(&mut self, at: usize, reset: Reset, value: Pin, name: Option<&str>) -> Outcome<Pin> {
        let active = self.active(at, reset.level)?;
        let site = self.wiring.site(at);
        Ok(match reset.value {
            false => self.sheet.and(&site, name, value, !active),
            true => self.sheet.or(&site, name, value, active),
        })
    }

    /// Tells each REG what it takes at the clock.
    fn clock_registers(&mut self) -> Outcome<()> {
        for at in 0..self.wiring.roles.len() {
            if let Role::Register(flop) = self.wiring.roles[at] {
                let next = self.next(at, &flop)?;
                let held = self.held[&at];
                self.sheet.builder.clock(held, next);
            }
        }
        Ok(())
    }

    /// What a register takes at the clock: D, by its enable and its resets.
    fn next(&mut self, at: usize, flop: &Flop) -> Outcome<Pin> {
        let mut next = self.read(at, "D")?;
        let inner = flop.reset.filter(|_| flop.reset_needs_enable);
        let outer = flop.reset.filter(|_| !flop.reset_needs_enable);
        if let Some(reset) = inner {
            next = self.reset(at, reset, next, Some("reset"))?;
        }
        if let Some(enable) = flop.enable {
            let active = self.active(at, enable)?;
            next = self.sheet.mux(&self.wiring.site(at), Some("enable"), [self.held[&at], next, active]);
        }
        if let Some(reset) = outer {
            next = self.reset(at, reset, next, Some("reset"))?;
        }
        self.forced(at, flop, next, [Some("next"), Some("nextset")])
    }

    /// Adds an OUT for each bit of an output port.
    fn put_outputs(&mut self) -> Outcome<()> {
        for (port, (name, declared)) in self.wiring.module.ports.0.iter().enumerate() {
            if declared.direction != "output" {
                continue;
            }
            for (at, bit) in declared.bits.iter().enumerate() {
                let name = declared.bit_name(name, at);
                let read = match bit {
                    Bit::Constant(text) => self.constant(self.value(text, &name)?),
                    Bit::Net(net) => self.pins.get(net).copied(),
                };
                let Some(read) = read else {
                    fail!("{}: nothing drives {name}", self.wiring.told_port(port));
                };
                let site = Site { name: &name, source: self.wiring.port_line(port) };
                self.sheet.output(&site, read);
            }
        }
        Ok(())
    }
}
