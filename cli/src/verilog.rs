//! An image as Verilog: a wire for each net, with the ports of the names file.

use crate::design::Design;
use crate::failure::{fail, Outcome};
use crate::names::Clock;
use std::collections::{BTreeMap, HashMap, HashSet};
use std::fmt::Write;
use tracker::kinds::{AND, CONST, INPUT, MUX, NOT, OR, OUT, REG, XOR};
use tracker::{Image, Pin};

/// Words of Verilog that are no names.
const KEYWORDS: &str = " always and assign automatic begin buf bufif0 bufif1 case casex casez cell cmos config deassign default defparam \
design disable edge else end endcase endconfig endfunction endgenerate endmodule endprimitive endspecify endtable endtask event for force \
forever fork function generate genvar highz0 highz1 if ifnone incdir include initial inout input instance integer join large liblist library \
localparam macromodule medium module nand negedge nmos nor noshowcancelled not notif0 notif1 or output parameter pmos posedge primitive pull0 \
pull1 pulldown pullup pulsestyle_ondetect pulsestyle_onevent rcmos real realtime reg release repeat rnmos rpmos rtran rtranif0 rtranif1 scalared \
showcancelled signed small specify specparam strong0 strong1 supply0 supply1 table task time tran tranif0 tranif1 tri tri0 tri1 triand trior \
trireg unsigned use uwire vectored wait wand weak0 weak1 while wire wor xnor xor ";

/// A port: its name, its range where it has several bits or an index, and the names of its bits from the least significant one.
struct Port {
    name: String,
    range: Option<(i64, i64)>,
    bits: Vec<String>,
}

/// A name as Verilog has it. One with other characters than letters, digits and underscores ends with a blank.
fn identifier(name: &str) -> String {
    let mut letters = name.chars();
    let first = letters.next().is_some_and(|letter| letter.is_ascii_alphabetic() || letter == '_');
    let plain = first && letters.all(|letter| letter.is_ascii_alphanumeric() || letter == '_');
    if plain && !KEYWORDS.contains(&format!(" {name} ")) {
        name.to_string()
    } else {
        format!("\\{name} ")
    }
}

/// The base and the index of a bit's name.
fn indexed(name: &str) -> Option<(&str, i64)> {
    let (base, index) = name.strip_suffix(']')?.rsplit_once('[')?;
    Some((base, index.parse().ok()?))
}

/// The bits of ports put together: neighbours of one name whose indices follow each other are one port. Where that name comes twice, its bits
/// stay ports of their own.
fn ports(names: &[String]) -> Vec<Port> {
    let mut ports: Vec<Port> = Vec::new();
    for name in names {
        let bit = indexed(name);
        if let (Some((base, index)), Some(port)) = (bit, ports.last_mut()) {
            if let Some((last, first)) = port.range.filter(|_| port.name == base) {
                let step = if port.bits.len() == 1 { index - last } else { (last - first).signum() };
                if step.abs() == 1 && index == last + step {
                    port.range = Some((index, first));
                    port.bits.push(name.clone());
                    continue;
                }
            }
        }
        ports.push(Port {
            name: bit.map_or(name.as_str(), |(base, _)| base).to_string(),
            range: bit.map(|(_, index)| (index, index)),
            bits: vec![name.clone()],
        });
    }
    let mut count: HashMap<String, usize> = HashMap::new();
    for port in &ports {
        *count.entry(port.name.clone()).or_default() += 1;
    }
    let split = |port: Port| match count[&port.name] {
        1 => vec![port],
        _ => port.bits.into_iter().map(|bit| Port { name: bit.clone(), range: None, bits: vec![bit] }).collect(),
    };
    ports.into_iter().flat_map(split).collect()
}

/// How each bit of the ports is written in an expression.
fn written(ports: &[Port]) -> HashMap<String, String> {
    let mut written = HashMap::new();
    for port in ports {
        for bit in &port.bits {
            let name = identifier(&port.name);
            let text = match indexed(bit).filter(|_| port.range.is_some()) {
                Some((_, index)) => format!("{name}[{index}]"),
                None => name,
            };
            written.insert(bit.clone(), text);
        }
    }
    written
}

/// The text of a module.
pub fn module(design: &Design, name: &str) -> Outcome<String> {
    let Some(image) = Image::of(&design.image) else {
        fail!("{}: no image", design.file);
    };
    let (inputs, outputs) = (ports(&design.inputs()), ports(&design.output_names()));
    let taken: HashSet<&str> = inputs.iter().chain(&outputs).map(|port| port.name.as_str()).collect();
    let mut prefix = String::from("n");
    while taken.iter().any(|name| name.starts_with(&prefix)) {
        prefix.push('_');
    }
    let default = Clock { name: format!("{prefix}clk"), rising: true };
    let clock = design.names.clock.clone().unwrap_or(default);
    let clock = Some(clock).filter(|_| design.sizes.registers > 0);
    let mut text = head(name, clock.as_ref(), &inputs, &outputs);
    text.push_str(&body(&image, &prefix, clock.as_ref(), design, &written(&inputs), &written(&outputs)));
    let mut taken: HashSet<String> = taken.into_iter().map(str::to_string).collect();
    taken.extend(clock.map(|clock| clock.name));
    text.push_str(&inner_names(design, &prefix, &taken));
    text.push_str("endmodule\n");
    Ok(text)
}

/// The names of nets inside of the netlist, as wires. Bits of one name whose indices follow each other are one wire.
fn inner_names(design: &Design, prefix: &str, taken: &HashSet<String>) -> String {
    let mut bits: BTreeMap<(String, Option<i64>), String> = BTreeMap::new();
    for signal in design.signals() {
        let (base, index) = indexed(signal.name).map_or((signal.name, None), |(base, index)| (base, Some(index)));
        if !taken.contains(base) && !taken.contains(signal.name) && !base.starts_with(prefix) {
            let sign = if signal.inverted { "~" } else { "" };
            bits.insert((base.to_string(), index), format!("{sign}{prefix}{}", signal.net));
        }
    }
    let names: Vec<String> = bits.keys().map(|(base, index)| index.map_or(base.clone(), |index| format!("{base}[{index}]"))).collect();
    let wires = ports(&names);
    let by_name: HashMap<&String, &String> = names.iter().zip(bits.values()).collect();
    let as_written = written(&wires);
    let mut text = String::new();
    for wire in &wires {
        let range = wire.range.map_or_else(String::new, |(last, first)| format!(" [{last}:{first}]"));
        let _ = writeln!(text, "  wire{range} {};", identifier(&wire.name));
        for bit in &wire.bits {
            let _ = writeln!(text, "  assign {} = {};", as_written[bit], by_name[bit]);
        }
    }
    text
}

/// The declaration of the module and its ports.
fn head(name: &str, clock: Option<&Clock>, inputs: &[Port], outputs: &[Port]) -> String {
    let ports = inputs.iter().chain(outputs).map(|port| identifier(&port.name));
    let all: Vec<String> = clock.iter().map(|clock| identifier(&clock.name)).chain(ports).collect();
    let mut text = format!("module {}({});\n", identifier(name), all.join(", "));
    if let Some(clock) = clock {
        let _ = writeln!(text, "  input {};", identifier(&clock.name));
    }
    for (direction, ports) in [("input", inputs), ("output", outputs)] {
        for port in ports {
            let range = port.range.map_or_else(String::new, |(last, first)| format!(" [{last}:{first}]"));
            let _ = writeln!(text, "  {direction}{range} {};", identifier(&port.name));
        }
    }
    text
}

/// The nets: declarations first, since a register may read a net behind it.
fn body(
    image: &Image,
    prefix: &str,
    clock: Option<&Clock>,
    design: &Design,
    inputs: &HashMap<String, String>,
    outputs: &HashMap<String, String>,
) -> String {
    let (mut declared, mut text) = (String::new(), String::new());
    let edge = clock.map(|clock| format!("{} {}", if clock.rising { "posedge" } else { "negedge" }, identifier(&clock.name)));
    let edge = edge.unwrap_or_default();
    for (number, net) in image.nets().enumerate() {
        let read = |operand| {
            let pin: Pin = image.pin(number, operand);
            format!("{}{prefix}{}", if pin.is_inverted() { "~" } else { "" }, pin.net())
        };
        let name = design.names.name(number);
        let _ = match (net.kind, image.kinds()[number] == REG && image.start(number).is_some()) {
            (REG, true) => writeln!(declared, "  reg {prefix}{number} = 1'b{};", net.operands[1]),
            (REG, false) => writeln!(declared, "  reg {prefix}{number};"),
            _ => writeln!(declared, "  wire {prefix}{number};"),
        };
        let value = match net.kind {
            CONST => format!("1'b{}", net.operands[0]),
            INPUT => inputs[&name].clone(),
            NOT => format!("~({})", read(0)),
            AND => format!("{} & {}", read(0), read(1)),
            OR => format!("{} | {}", read(0), read(1)),
            XOR => format!("{} ^ {}", read(0), read(1)),
            MUX => format!("{} ? {} : {}", read(2), read(1), read(0)),
            _ => read(0),
        };
        let _ = match net.kind {
            REG => writeln!(text, "  always @({edge}) {prefix}{number} <= {value};"),
            _ => writeln!(text, "  assign {prefix}{number} = {value};"),
        };
        if net.kind == OUT {
            let _ = writeln!(text, "  assign {} = {prefix}{number};", outputs[&name]);
        }
    }
    declared + &text
}
