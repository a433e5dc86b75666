//! The starts of registers: what the `init` attributes of wires say of each net.

use super::netlist::{source_line, Bit, Module};
use super::wiring::line;
use crate::failure::{fail, Outcome};
use serde_json::Value;
use std::collections::HashMap;

/// The start of each net that has one. A bit of an `init` attribute that is x says nothing.
pub fn starts_of(module: &Module) -> Outcome<HashMap<u64, bool>> {
    let mut starts = HashMap::new();
    for (name, wire) in &module.netnames.0 {
        let Some(init) = wire.attributes.get("init") else {
            continue;
        };
        let place = line(source_line(&wire.attributes));
        let Some(bits) = bits_of(init) else {
            fail!("{place}wire {name}: its init attribute {init} is no value");
        };
        for (at, bit) in wire.bits.iter().enumerate() {
            let (Bit::Net(net), Some(start)) = (bit, bits.get(at).copied().flatten()) else {
                continue;
            };
            if starts.insert(*net, start) == Some(!start) {
                fail!("{place}wire {}: its init attribute gives another start than one before it", wire.bit_name(name, at));
            }
        }
    }
    Ok(starts)
}

/// The bits of an attribute, from the least significant one: 0, 1, or none for x and z.
fn bits_of(init: &Value) -> Option<Vec<Option<bool>>> {
    match init {
        Value::String(text) => text.trim_end().chars().rev().map(bit_of).collect(),
        Value::Number(number) => {
            let number = number.as_u64()?;
            Some((0..64).map(|at| Some(number >> at & 1 == 1)).collect())
        }
        _ => None,
    }
}

/// One digit of an attribute; none where it is no digit.
fn bit_of(digit: char) -> Option<Option<bool>> {
    match digit {
        '0' => Some(Some(false)),
        '1' => Some(Some(true)),
        'x' | 'z' => Some(None),
        _ => None,
    }
}
