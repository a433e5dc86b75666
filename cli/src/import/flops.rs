//! Registers among yosys' internal cells: what each letter of a cell's type says.

/// A pin that acts at one level: its name, and the level.
#[derive(Debug, Clone, Copy, PartialEq, Eq)]
pub struct Level {
    pub pin: &'static str,
    pub high: bool,
}

/// A pin that sets the register to a constant.
#[derive(Debug, Clone, Copy, PartialEq, Eq)]
pub struct Reset {
    pub level: Level,
    pub value: bool,
}

/// What acts on a register without waiting for the clock.
#[derive(Debug, Clone, Copy, PartialEq, Eq)]
pub enum Asynchronous {
    /// Nothing does.
    None,
    /// One pin sets it to a constant.
    Reset(Reset),
    /// One pin sets it to 1 and another to 0, and the latter has precedence.
    SetReset { set: Level, reset: Level },
    /// One pin has it follow pin AD.
    Load(Level),
}

/// A register: D is taken at the clock, and Q is its output.
#[derive(Debug, Clone, Copy, PartialEq, Eq)]
pub struct Flop {
    /// Whether pin C acts at its rising edge; none where the cell has no clock pin.
    pub rising: Option<bool>,
    pub enable: Option<Level>,
    /// A reset that waits for the clock.
    pub reset: Option<Reset>,
    /// Whether that reset acts only while the register is enabled.
    pub reset_needs_enable: bool,
    pub asynchronous: Asynchronous,
}

/// The register without a pin but D, C and Q.
const PLAIN: Flop = Flop {
    rising: None,
    enable: None,
    reset: None,
    reset_needs_enable: false,
    asynchronous: Asynchronous::None,
};

/// The letters of a type, taken one by one.
struct Letters<'a>(&'a [u8]);

impl Letters<'_> {
    fn take(&mut self, one: u8, zero: u8) -> Option<bool> {
        let (&letter, rest) = self.0.split_first()?;
        self.0 = rest;
        match letter {
            letter if letter == one => Some(true),
            letter if letter == zero => Some(false),
            _ => None,
        }
    }

    /// P for a rising edge or a high level, N for the other.
    fn level(&mut self, pin: &'static str) -> Option<Level> {
        let high = self.take(b'P', b'N')?;
        Some(Level { pin, high })
    }

    /// A level of pin R, and the value that it sets.
    fn reset(&mut self) -> Option<Reset> {
        let level = self.level("R")?;
        let value = self.take(b'1', b'0')?;
        Some(Reset { level, value })
    }
}

/// The register of a cell's type, or none where the type is not one of yosys' registers.
pub fn flop(kind: &str) -> Option<Flop> {
    if kind == "$_FF_" {
        return Some(PLAIN);
    }
    let (family, letters) = kind.strip_prefix("$_")?.strip_suffix('_')?.split_once('_')?;
    let mut letters = Letters(letters.as_bytes());
    let mut flop = PLAIN;
    flop.rising = Some(letters.take(b'P', b'N')?);
    match family {
        "DFF" | "DFFE" => {
            if letters.0.len() > 1 {
                flop.asynchronous = Asynchronous::Reset(letters.reset()?);
            }
        }
        "ALDFF" | "ALDFFE" => flop.asynchronous = Asynchronous::Load(letters.level("L")?),
        "DFFSR" | "DFFSRE" => {
            let set = letters.level("S")?;
            let reset = letters.level("R")?;
            flop.asynchronous = Asynchronous::SetReset { set, reset };
        }
        "SDFF" | "SDFFE" | "SDFFCE" => {
            flop.reset = Some(letters.reset()?);
            flop.reset_needs_enable = family == "SDFFCE";
        }
        _ => return None,
    }
    if family.ends_with('E') {
        flop.enable = Some(letters.level("E")?);
    }
    letters.0.is_empty().then_some(flop)
}
