//! The decoded form of a netlist.

/// The nine kinds of nets, in the order of their kind bytes.
#[derive(Debug, Clone, Copy, PartialEq, Eq)]
pub enum Kind {
    Const,
    Input,
    Reg,
    Not,
    And,
    Or,
    Xor,
    Mux,
    Out,
}

impl Kind {
    /// The kind that a kind byte stands for. There is none above 8.
    pub fn from_byte(byte: u8) -> Option<Kind> {
        match byte {
            0 => Some(Kind::Const),
            1 => Some(Kind::Input),
            2 => Some(Kind::Reg),
            3 => Some(Kind::Not),
            4 => Some(Kind::And),
            5 => Some(Kind::Or),
            6 => Some(Kind::Xor),
            7 => Some(Kind::Mux),
            8 => Some(Kind::Out),
            _ => None,
        }
    }

    /// The kind byte of a kind.
    pub fn byte(self) -> u8 {
        match self {
            Kind::Const => 0,
            Kind::Input => 1,
            Kind::Reg => 2,
            Kind::Not => 3,
            Kind::And => 4,
            Kind::Or => 5,
            Kind::Xor => 6,
            Kind::Mux => 7,
            Kind::Out => 8,
        }
    }
}

/// A pin names the net that it reads. By request L3 of document 02 an inverted
/// pin reads the value of its net inverted and the mark unchanged.
#[derive(Debug, Clone, Copy, PartialEq, Eq)]
pub struct Pin {
    pub net: usize,
    pub inverted: bool,
}

impl Pin {
    /// The pin that reads a net as it is.
    pub fn plain(net: usize) -> Pin {
        Pin {
            net,
            inverted: false,
        }
    }
}

/// The start of a register: 0, 1, or 2 for none given. A register with none
/// given wakes unknown.
#[derive(Debug, Clone, Copy, PartialEq, Eq)]
pub enum Start {
    Zero,
    One,
    NoneGiven,
}

/// The policy of an OUT: 0 free, 1 protected.
#[derive(Debug, Clone, Copy, PartialEq, Eq)]
pub enum Policy {
    Free,
    Protected,
}

/// One net with its listed operands, in the order a, b, c.
#[derive(Debug, Clone, Copy, PartialEq, Eq)]
pub enum Net {
    Const(bool),
    Input,
    Reg(Pin, Start),
    Not(Pin),
    And(Pin, Pin),
    Or(Pin, Pin),
    Xor(Pin, Pin),
    Mux(Pin, Pin, Pin),
    Out(Pin, Policy),
}

impl Net {
    /// The kind of a net.
    pub fn kind(self) -> Kind {
        match self {
            Net::Const(_) => Kind::Const,
            Net::Input => Kind::Input,
            Net::Reg(_, _) => Kind::Reg,
            Net::Not(_) => Kind::Not,
            Net::And(_, _) => Kind::And,
            Net::Or(_, _) => Kind::Or,
            Net::Xor(_, _) => Kind::Xor,
            Net::Mux(_, _, _) => Kind::Mux,
            Net::Out(_, _) => Kind::Out,
        }
    }
}

/// A netlist: its nets in net order and the numbers of its inputs, registers
/// and outputs. Inputs, registers and outputs are each counted in net order.
#[derive(Debug, Clone, PartialEq, Eq)]
pub struct Netlist {
    pub inputs: usize,
    pub registers: usize,
    pub outputs: usize,
    pub nets: Vec<Net>,
}
