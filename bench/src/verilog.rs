//! A netlist as Verilog, for the tools of hardware engineers.
//!
//! The module `net` is combinational: a register's value comes in at a port `q`,
//! and what it takes at the clock goes out at a port `d`. Gates are cells of the
//! kinds that the pass `glift` of yosys knows, and all ports have one bit, since
//! the pass takes whole wires only. An inverted pin has `~` before its net.

use crate::pins::{is_inverted, net_of};
use tracker::kinds::{AND, CONST, INPUT, MUX, NOT, OR, OUT, REG};
use tracker::{Image, Net, Sizes};

/// A port of `net`, one for each INPUT, REG or OUT.
struct Port {
    name: &'static str,
    direction: &'static str,
    count: usize,
}

/// All ports.
fn ports(z: Sizes) -> [Port; 4] {
    let port = |name, direction, count| Port {
        name,
        direction,
        count,
    };
    [
        port("in", "input", z.inputs),
        port("q", "input", z.registers),
        port("out", "output", z.outputs),
        port("d", "output", z.registers),
    ]
}

/// How a MUX is written.
#[derive(Clone, Copy)]
pub enum MuxAs {
    /// As a NOT, three ANDs and two ORs, of which the third AND is that of a and b:
    /// it is 1 between two ones, whatever c is, and so such a MUX is not marked.
    Gates,
    /// As a cell of its own.
    Cell,
}

/// The module `net` of an accepted image.
pub fn net(image: Image, mux_as: MuxAs) -> String {
    let mut names = Vec::new();
    for port in ports(image.sizes()) {
        let one = |i: usize| format!("{} {}{i}", port.direction, port.name);
        names.extend((0..port.count).map(one));
    }
    let mut text = format!("module net({});\n", names.join(",\n"));
    let mut counts = [0; 9];
    for (number, net) in image.nets().enumerate() {
        let place = &mut counts[usize::from(net.kind)];
        text += &net_text(number, net, *place, mux_as);
        *place += 1;
    }
    text + "endmodule\n"
}

/// One net. `place` is its number among the nets of its kind.
fn net_text(n: usize, net: Net, place: usize, mux_as: MuxAs) -> String {
    let [a, b, _] = net.operands.map(pin_text);
    let wire = format!("wire n{n};");
    match net.kind {
        CONST => format!("{wire} assign n{n} = 1'b{};\n", net.operands[0]),
        INPUT => format!("{wire} assign n{n} = in{place};\n"),
        REG => format!("{wire} assign n{n} = q{place}; assign d{place} = {a};\n"),
        NOT => format!("{wire} \\$_NOT_ g{n} (.A({a}), .Y(n{n}));\n"),
        MUX => mux_text(n, net.operands.map(pin_text), mux_as),
        OUT => format!("{wire} assign n{n} = {a}; assign out{place} = n{n};\n"),
        _ => {
            let cell = cell(net.kind);
            format!("{wire} \\{cell} g{n} (.A({a}), .B({b}), .Y(n{n}));\n")
        }
    }
}

/// What a pin reads.
fn pin_text(pin: u16) -> String {
    let inverter = if is_inverted(pin) { "~" } else { "" };
    format!("{inverter}n{}", net_of(pin))
}

/// The cell of a gate with two pins.
fn cell(kind: u8) -> &'static str {
    match kind {
        AND => "$_AND_",
        OR => "$_OR_",
        _ => "$_XOR_",
    }
}

/// MUX: a if c is 0, b if c is 1.
fn mux_text(n: usize, [a, b, c]: [String; 3], mux_as: MuxAs) -> String {
    if let MuxAs::Cell = mux_as {
        return format!("wire n{n}; \\$_MUX_ g{n} (.A({a}), .B({b}), .S({c}), .Y(n{n}));\n");
    }
    let mut text = format!("wire n{n}, m{n}, p{n}, s{n}, u{n}, w{n};");
    text += &format!(" \\$_NOT_ gm{n} (.A({c}), .Y(m{n}));");
    text += &format!(" \\$_AND_ gp{n} (.A({a}), .B(m{n}), .Y(p{n}));");
    text += &format!(" \\$_AND_ gs{n} (.A({b}), .B({c}), .Y(s{n}));");
    text += &format!(" \\$_AND_ gu{n} (.A({a}), .B({b}), .Y(u{n}));");
    text += &format!(" \\$_OR_ gw{n} (.A(p{n}), .B(s{n}), .Y(w{n}));");
    text + &format!(" \\$_OR_ g{n} (.A(w{n}), .B(u{n}), .Y(n{n}));\n")
}

/// How a module with marks names its ports.
#[derive(Clone, Copy)]
pub enum MarksAs {
    /// As the pass does: a mark has the name of its value, and `_t` behind it.
    Names,
    /// As the doubled netlist numbers them: value i is 2i, and its mark 2i + 1.
    Numbers,
}

impl MarksAs {
    /// What stands behind the name of port i, for a value (0) or a mark (1).
    fn suffix(self, i: usize, mark: usize) -> String {
        match self {
            MarksAs::Names => format!("{i}{}", MARKS[mark]),
            MarksAs::Numbers => format!("{}", 2 * i + mark),
        }
    }
}

/// What stands behind the names of values and of marks.
const MARKS: [&str; 2] = ["", "_t"];

/// The module `top` of a netlist with these sizes: `net` with a mark beside each
/// value, and its ports gathered to vectors of one bit at least.
pub fn top(sizes: Sizes, marks_as: MarksAs) -> String {
    let mut vectors = Vec::new();
    let mut pins = Vec::new();
    let mut rest = String::new();
    for port in ports(sizes) {
        for (mark, end) in MARKS.iter().enumerate() {
            let name = format!("{}{end}", port.name);
            let high = port.count.max(1) - 1;
            vectors.push(format!("{} [{high}:0] {name}", port.direction));
            let pin = |i: usize| {
                let suffix = marks_as.suffix(i, mark);
                format!(".{}{suffix}({name}[{i}])", port.name)
            };
            pins.extend((0..port.count).map(pin));
            if port.count == 0 && port.direction == "output" {
                rest += &format!("assign {name} = 1'b0;\n");
            }
        }
    }
    let (vectors, pins) = (vectors.join(", "), pins.join(",\n"));
    format!("module top({vectors});\nnet net({pins});\n{rest}endmodule\n")
}
