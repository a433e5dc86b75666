//! A netlist in JSON, as yosys writes it: modules with ports, cells and named wires.

use super::ordered::Ordered;
use crate::failure::{fail, Failure, Outcome};
use serde::Deserialize;
use serde_json::Value;
use std::collections::HashMap;

/// A file of JSON.
#[derive(Debug, Deserialize)]
pub struct Design {
    /// The program that wrote it, with its version.
    #[serde(default)]
    pub creator: String,
    pub modules: Ordered<Module>,
}

/// One module.
#[derive(Debug, Deserialize)]
pub struct Module {
    #[serde(default)]
    pub attributes: HashMap<String, Value>,
    #[serde(default)]
    pub ports: Ordered<Port>,
    #[serde(default)]
    pub cells: Ordered<Cell>,
    #[serde(default)]
    pub netnames: Ordered<Wire>,
}

/// One bit of a port, a cell's pin or a wire: a number for a net of the file, or a constant.
#[derive(Debug, Clone, PartialEq, Eq, Deserialize)]
#[serde(untagged)]
pub enum Bit {
    Net(u64),
    Constant(String),
}

/// A port. Its bits are listed from the least significant one.
#[derive(Debug, Deserialize)]
pub struct Port {
    pub direction: String,
    pub bits: Vec<Bit>,
    #[serde(default)]
    pub offset: i64,
    #[serde(default)]
    pub upto: u8,
}

/// A cell: a gate, a register, or anything else.
#[derive(Debug, Deserialize)]
pub struct Cell {
    #[serde(rename = "type")]
    pub kind: String,
    #[serde(default)]
    pub attributes: HashMap<String, Value>,
    pub connections: Ordered<Vec<Bit>>,
}

/// A wire with a name. A name that begins with `$` was made by the program that wrote the file.
#[derive(Debug, Deserialize)]
pub struct Wire {
    pub bits: Vec<Bit>,
    #[serde(default)]
    pub attributes: HashMap<String, Value>,
    #[serde(default)]
    pub offset: i64,
    #[serde(default)]
    pub upto: u8,
}

/// The text of one bit of a name: the name alone for a single bit, and otherwise with its index in brackets. `at` counts from the least
/// significant bit.
pub fn bit_name(name: &str, width: usize, offset: i64, upto: bool, at: usize) -> String {
    if width == 1 && offset == 0 {
        return name.to_string();
    }
    let place = if upto { width - 1 - at } else { at };
    let index = i128::from(offset) + place as i128;
    format!("{name}[{index}]")
}

impl Port {
    /// The name of one bit.
    pub fn bit_name(&self, name: &str, at: usize) -> String {
        bit_name(name, self.bits.len(), self.offset, self.upto != 0, at)
    }
}

impl Wire {
    /// The name of one bit.
    pub fn bit_name(&self, name: &str, at: usize) -> String {
        bit_name(name, self.bits.len(), self.offset, self.upto != 0, at)
    }
}

/// The source line among attributes. Where there are several, from the outermost instance inwards, it is the last one that is not a line of
/// yosys itself.
pub fn source_line(attributes: &HashMap<String, Value>) -> Option<&str> {
    let lines = attributes.get("src")?.as_str()?.split('|').map(str::trim);
    lines.filter(|line| !line.is_empty() && !line.contains("/share/yosys/")).last()
}

/// Whether an attribute is there and not 0.
pub fn has_attribute(attributes: &HashMap<String, Value>, name: &str) -> bool {
    match attributes.get(name) {
        Some(Value::String(text)) => text.contains('1'),
        Some(Value::Number(number)) => number.as_u64() != Some(0),
        _ => false,
    }
}

impl Design {
    /// Reads a file of JSON.
    pub fn read(file: &str, bytes: &[u8]) -> Outcome<Design> {
        serde_json::from_slice(bytes)
            .map_err(|error| Failure::new(format!("{file}: no netlist in yosys' JSON: {error}")))
    }

    /// The module to import: the one that is asked for, the one that the file calls its top, or the only one.
    pub fn top(&self, asked: Option<&str>) -> Outcome<(&str, &Module)> {
        let found = |(name, module): &'_ (String, Module)| match asked {
            Some(asked) => name == asked,
            None => has_attribute(&module.attributes, "top"),
        };
        let modules = &self.modules.0;
        let only = match (asked, &modules[..]) {
            (None, [only]) => Some(only),
            _ => None,
        };
        let mut tops = modules.iter().filter(|named| found(named));
        match (tops.next().or(only), tops.next(), asked) {
            (Some((name, module)), None, _) => Ok((name, module)),
            (_, _, Some(asked)) => fail!("there is no module {asked}{}", self.listed()),
            _ => fail!("which module is the top? Say --top{}", self.listed()),
        }
    }

    /// The names of all modules, for a message.
    fn listed(&self) -> String {
        let names: Vec<&str> = self.modules.0.iter().map(|(name, _)| name.as_str()).collect();
        format!(" (there are: {})", names.join(", "))
    }
}
