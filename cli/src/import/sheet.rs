//! The netlist that is being made: its nets, and beside each of them its name and source line.

use crate::names::Named;
use tracker::kinds;
use tracker::{Builder, Pin};

/// What a net is made from: a cell or a port, with its source line.
#[derive(Debug, Clone, Copy)]
pub struct Site<'a> {
    pub name: &'a str,
    pub source: Option<&'a str>,
}

/// The nets so far.
#[derive(Debug, Default)]
pub struct Sheet {
    pub builder: Builder,
    pub nets: Vec<Named>,
}

impl Sheet {
    /// Adds one net of a site. A part names a net inside of a cell; the net that shows the cell's output has none, and gets its name from the
    /// wires.
    fn add(&mut self, site: &Site, part: Option<&str>, kind: u8, net: impl FnOnce(&mut Builder) -> Pin) -> Pin {
        let pin = net(&mut self.builder);
        self.nets.push(Named {
            kind,
            name: part.map(|part| format!("{}:{part}", site.name)),
            source: site.source.map(str::to_string),
        });
        pin
    }

    /// Adds a CONST.
    pub fn constant(&mut self, value: bool) -> Pin {
        let site = Site { name: "", source: None };
        let pin = self.add(&site, None, kinds::CONST, |nets| nets.constant(value));
        self.rename(pin, format!("constant{}", u8::from(value)));
        pin
    }

    /// Adds an INPUT, whose name is the site's.
    pub fn input(&mut self, site: &Site) -> Pin {
        let pin = self.add(site, None, kinds::INPUT, Builder::input);
        self.rename(pin, site.name.to_string());
        pin
    }

    /// Adds a REG, which takes its own byte until it is told what to take.
    pub fn register(&mut self, site: &Site, start: Option<bool>) -> Pin {
        self.add(site, None, kinds::REG, |nets| nets.register(start))
    }

    /// Adds an OUT, free, whose name is the site's.
    pub fn output(&mut self, site: &Site, a: Pin) -> Pin {
        let pin = self.add(site, None, kinds::OUT, |nets| nets.output(a, false));
        self.rename(pin, site.name.to_string());
        pin
    }

    /// Adds an AND.
    pub fn and(&mut self, site: &Site, part: Option<&str>, a: Pin, b: Pin) -> Pin {
        self.add(site, part, kinds::AND, |nets| nets.and(a, b))
    }

    /// Adds an OR.
    pub fn or(&mut self, site: &Site, part: Option<&str>, a: Pin, b: Pin) -> Pin {
        self.add(site, part, kinds::OR, |nets| nets.or(a, b))
    }

    /// Adds a XOR.
    pub fn xor(&mut self, site: &Site, part: Option<&str>, a: Pin, b: Pin) -> Pin {
        self.add(site, part, kinds::XOR, |nets| nets.xor(a, b))
    }

    /// Adds a MUX, which gives a if c is 0 and b if c is 1.
    pub fn mux(&mut self, site: &Site, part: Option<&str>, [a, b, c]: [Pin; 3]) -> Pin {
        self.add(site, part, kinds::MUX, |nets| nets.mux(a, b, c))
    }

    /// Gives a net another name.
    pub fn rename(&mut self, pin: Pin, name: String) {
        self.nets[pin.net()].name = Some(name);
    }
}
