//! Images built net by net.

use crate::kinds::{AND, CONST, INPUT, MUX, NOT, OR, OUT, REG, XOR};
use crate::{check, encode, Net, Pin, Reason, Refusal, MOST_NETS};

/// Builds the image of a netlist, net by net.
///
/// Each net gets the next number, from 0, and is given as a [`Pin`] on it, which
/// later nets take as it is or, with `!`, inverted. A register comes before the
/// net that it takes at the clock, so [`clock`](Builder::clock) names that later.
///
/// A builder takes any pin, also one of another builder or one that no net has:
/// [`image`](Builder::image) says whether the nets are a netlist.
///
/// ```
/// use tracker::{power_up, run, Builder, FirstFlow, Verdict};
///
/// // The register is 1 in the cycle after one in which it and the input are 0.
/// let mut builder = Builder::new();
/// let input = builder.input();
/// let register = builder.register(Some(false));
/// let next = builder.and(!register, !input);
/// builder.clock(register, next);
/// let output = builder.output(register, true);
/// let image = builder.image()?;
///
/// let (mut state, mut outputs) = ([0; 3], [0; 4]);
/// power_up(&image, &mut state)?;
/// let answer = run(&image, 4, &mut state, &[2, 0, 1, 0], &mut outputs)?;
/// let verdict = Verdict::Flow { net: output.net() };
/// assert_eq!(answer, FirstFlow { cycle: 1, verdict });
/// assert_eq!(outputs, [0, 3, 2, 0]);
/// # Ok::<(), tracker::Refusal>(())
/// ```
#[derive(Debug, Clone, Default)]
pub struct Builder {
    nets: Vec<Net>,
}

/// The operand b of a register without a start.
const NO_START: u16 = 2;

impl Builder {
    /// A builder without nets.
    #[must_use]
    pub fn new() -> Builder {
        Builder::default()
    }

    /// Adds a constant.
    pub fn constant(&mut self, value: bool) -> Pin {
        self.add(CONST, [u16::from(value), 0, 0])
    }

    /// Adds an input, which reads the next byte of the row.
    pub fn input(&mut self) -> Pin {
        self.add(INPUT, [0; 3])
    }

    /// Adds a register with this start, or without one, so that it wakes
    /// untrusted. It takes its own byte at the clock until
    /// [`clock`](Builder::clock) says otherwise.
    pub fn register(&mut self, start: Option<bool>) -> Pin {
        let own = Pin::of(self.len()).operand();
        self.add(REG, [own, start.map_or(NO_START, u16::from), 0])
    }

    /// Says what a register takes at the clock. The last call for a register
    /// counts.
    ///
    /// After the clock, `register` reads what `taken` read before it. So for an
    /// inverted pin on a register, the register takes the inverted `taken`.
    ///
    /// # Panics
    ///
    /// The net of `register` is no register of this builder.
    ///
    /// ```
    /// use tracker::{run, Builder};
    ///
    /// let mut builder = Builder::new();
    /// let input = builder.input();
    /// let register = builder.register(Some(false));
    /// builder.clock(!register, input);
    /// builder.output(register, false);
    /// builder.output(!register, false);
    /// let image = builder.image()?;
    ///
    /// // The row of cycle 0 is what the second output reads in cycle 1.
    /// let mut outputs = [0; 4];
    /// let _ = run(&image, 2, &mut [0; 3], &[3, 0], &mut outputs)?;
    /// assert_eq!(outputs, [0, 1, 2, 3]);
    /// # Ok::<(), tracker::Refusal>(())
    /// ```
    pub fn clock(&mut self, register: Pin, taken: Pin) {
        let taken = if register.is_inverted() {
            !taken
        } else {
            taken
        };
        match self.nets.get_mut(register.net()) {
            Some(net) if net.kind == REG => net.operands[0] = taken.operand(),
            _ => panic!("net {} is no register of this builder", register.net()),
        }
    }

    /// Adds a NOT. An inverted pin reads the same without a net of its own.
    pub fn not(&mut self, a: Pin) -> Pin {
        self.add(NOT, [a.operand(), 0, 0])
    }

    /// Adds an AND.
    pub fn and(&mut self, a: Pin, b: Pin) -> Pin {
        self.add(AND, [a.operand(), b.operand(), 0])
    }

    /// Adds an OR.
    pub fn or(&mut self, a: Pin, b: Pin) -> Pin {
        self.add(OR, [a.operand(), b.operand(), 0])
    }

    /// Adds a XOR.
    pub fn xor(&mut self, a: Pin, b: Pin) -> Pin {
        self.add(XOR, [a.operand(), b.operand(), 0])
    }

    /// Adds a MUX: `a` if `c` is 0, and `b` if `c` is 1.
    pub fn mux(&mut self, a: Pin, b: Pin, c: Pin) -> Pin {
        self.add(MUX, [a.operand(), b.operand(), c.operand()])
    }

    /// Adds an output, which passes `a` on, protected or free. Other nets may read
    /// its pin.
    pub fn output(&mut self, a: Pin, protected: bool) -> Pin {
        self.add(OUT, [a.operand(), u16::from(protected), 0])
    }

    /// The number of nets.
    #[must_use]
    pub fn len(&self) -> usize {
        self.nets.len()
    }

    /// Whether there are no nets.
    #[must_use]
    pub fn is_empty(&self) -> bool {
        self.nets.is_empty()
    }

    /// The image of the nets, which [`check`](crate::check) accepts.
    ///
    /// # Errors
    ///
    /// Turns back with 2 where there is no net or more than
    /// [`MOST_NETS`](crate::MOST_NETS), and with 5 at the first net with a pin on
    /// no net below its own, or of a register on none of the builder.
    ///
    /// ```
    /// use tracker::{Builder, Pin, Reason, Refusal};
    ///
    /// let mut builder = Builder::new();
    /// let input = builder.input();
    /// builder.and(input, Pin::of(7));
    /// let refusal = Refusal { reason: Reason::Pin, place: 1 };
    /// assert_eq!(builder.image(), Err(refusal));
    /// ```
    pub fn image(&self) -> Result<Vec<u8>, Refusal> {
        if self.len() > MOST_NETS {
            return Err(Refusal {
                reason: Reason::NetsOutOfRange,
                place: 0,
            });
        }
        let image = encode(&self.nets);
        check(&image)?;
        Ok(image)
    }

    /// Adds a net.
    fn add(&mut self, kind: u8, operands: [u16; 3]) -> Pin {
        self.nets.push(Net { kind, operands });
        Pin::of(self.len() - 1)
    }
}
