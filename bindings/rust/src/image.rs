//! Images read back.

use crate::kinds::{INPUT, OUT, REG};
use crate::layout::{HEAD, OPERANDS};
use crate::{image_length, sizes, Net, Pin, Sizes};

/// The bytes of an image, to be read: its sizes, its kinds and its operands.
///
/// They are read as they stand, and nothing but their number is checked. So an
/// image that [`check`](crate::check) refuses can be read too, unless it is
/// refused for its length.
///
/// ```
/// use tracker::{encode, kinds, Image, Net};
///
/// let nets = [Net::new(kinds::INPUT, 0, 0, 0), Net::new(kinds::OUT, 0, 1, 0)];
/// let bytes = encode(&nets);
/// let image = Image::of(&bytes).unwrap();
/// assert_eq!(image.sizes().outputs, 1);
/// assert_eq!(image.kinds(), [kinds::INPUT, kinds::OUT]);
/// assert_eq!(image.operand(1, 1), 1);
/// assert_eq!(image.net(1), nets[1]);
/// assert!(image.nets().eq(nets));
/// ```
#[derive(Debug, Clone, Copy, PartialEq, Eq)]
pub struct Image<'a> {
    sizes: Sizes,
    kinds: &'a [u8],
    operands: &'a [u8],
}

impl<'a> Image<'a> {
    /// The image in these bytes, or none where there are not 8 + 7 × N of them.
    #[inline]
    #[must_use]
    pub fn of(bytes: &'a [u8]) -> Option<Image<'a>> {
        let sizes = sizes(bytes)?;
        if bytes.len() != image_length(sizes.nets) {
            return None;
        }
        let (kinds, operands) = bytes[HEAD..].split_at(sizes.nets);
        Some(Image {
            sizes,
            kinds,
            operands,
        })
    }

    /// The sizes N, I, R and O.
    #[inline]
    #[must_use]
    pub fn sizes(&self) -> Sizes {
        self.sizes
    }

    /// The kinds of all nets.
    #[inline]
    #[must_use]
    pub fn kinds(&self) -> &'a [u8] {
        self.kinds
    }

    /// An operand of a net: 0 for a, 1 for b and 2 for c. A pin is given with its
    /// top bit, [`INVERTED`](crate::kinds::INVERTED).
    ///
    /// # Panics
    ///
    /// There is no such net or no such operand.
    #[inline]
    #[must_use]
    pub fn operand(&self, net: usize, operand: usize) -> u16 {
        self.operands(net)[operand]
    }

    /// A net.
    ///
    /// # Panics
    ///
    /// There is no such net.
    #[inline]
    #[must_use]
    pub fn net(&self, number: usize) -> Net {
        Net {
            kind: self.kinds[number],
            operands: self.operands(number),
        }
    }

    /// All nets, in order.
    #[inline]
    pub fn nets(&self) -> impl DoubleEndedIterator<Item = Net> + ExactSizeIterator + 'a {
        let entries = self.operands.chunks_exact(OPERANDS);
        self.kinds.iter().zip(entries).map(|(&kind, entry)| Net {
            kind,
            operands: decoded(entry),
        })
    }

    /// The numbers of the INPUTs, in net order, which is that of a row.
    #[inline]
    pub fn inputs(&self) -> impl DoubleEndedIterator<Item = usize> + 'a {
        self.of_kind(INPUT)
    }

    /// The numbers of the REGs, in net order, which is that of a state.
    #[inline]
    pub fn registers(&self) -> impl DoubleEndedIterator<Item = usize> + 'a {
        self.of_kind(REG)
    }

    /// The numbers of the OUTs, in net order, which is that of the outputs.
    ///
    /// ```
    /// use tracker::{Builder, Image};
    ///
    /// let mut builder = Builder::new();
    /// let input = builder.input();
    /// builder.output(input, true);
    /// builder.register(Some(false));
    /// builder.output(input, false);
    /// let bytes = builder.image()?;
    /// let image = Image::of(&bytes).unwrap();
    /// assert!(image.inputs().eq([0]));
    /// assert!(image.registers().eq([2]));
    /// assert!(image.outputs().eq([1, 3]));
    /// assert!(image.outputs().filter(|&net| image.is_protected(net)).eq([1]));
    /// # Ok::<(), tracker::Refusal>(())
    /// ```
    #[inline]
    pub fn outputs(&self) -> impl DoubleEndedIterator<Item = usize> + 'a {
        self.of_kind(OUT)
    }

    /// An operand of a net as a pin: 0 for a, 1 for b and 2 for c. Which operands
    /// are pins is for the net's kind to say.
    ///
    /// # Panics
    ///
    /// There is no such net or no such operand.
    ///
    /// ```
    /// use tracker::{Builder, Image};
    ///
    /// let mut builder = Builder::new();
    /// let input = builder.input();
    /// builder.output(!input, false);
    /// let bytes = builder.image()?;
    /// assert_eq!(Image::of(&bytes).unwrap().pin(1, 0), !input);
    /// # Ok::<(), tracker::Refusal>(())
    /// ```
    #[inline]
    #[must_use]
    pub fn pin(&self, net: usize, operand: usize) -> Pin {
        Pin::held(self.operand(net, operand))
    }

    /// The start of a register, or none where none is given. In an image that is
    /// refused for a start above 2, that is none given too.
    ///
    /// # Panics
    ///
    /// There is no such net, or it is no REG.
    ///
    /// ```
    /// use tracker::{Builder, Image};
    ///
    /// let mut builder = Builder::new();
    /// builder.register(Some(true));
    /// builder.register(None);
    /// let bytes = builder.image()?;
    /// let image = Image::of(&bytes).unwrap();
    /// assert_eq!((image.start(0), image.start(1)), (Some(true), None));
    /// # Ok::<(), tracker::Refusal>(())
    /// ```
    #[inline]
    #[must_use]
    pub fn start(&self, register: usize) -> Option<bool> {
        assert!(self.kinds[register] == REG, "net {register} is no REG");
        match self.operand(register, 1) {
            0 => Some(false),
            1 => Some(true),
            _ => None,
        }
    }

    /// Whether an OUT is protected: whether its policy is 1.
    ///
    /// # Panics
    ///
    /// There is no such net, or it is no OUT.
    #[inline]
    #[must_use]
    pub fn is_protected(&self, output: usize) -> bool {
        assert!(self.kinds[output] == OUT, "net {output} is no OUT");
        self.operand(output, 1) == 1
    }

    /// The numbers of the nets of a kind.
    #[inline]
    fn of_kind(&self, kind: u8) -> impl DoubleEndedIterator<Item = usize> + 'a {
        let numbered = self.kinds.iter().enumerate();
        numbered.filter_map(move |(net, &other)| (other == kind).then_some(net))
    }

    /// The operands of a net.
    #[inline]
    fn operands(&self, net: usize) -> [u16; 3] {
        decoded(&self.operands[OPERANDS * net..][..OPERANDS])
    }
}

/// The operands in the bytes of one net.
#[inline]
fn decoded(bytes: &[u8]) -> [u16; 3] {
    let operand = |low: u8, high: u8| u16::from_le_bytes([low, high]);
    [
        operand(bytes[0], bytes[1]),
        operand(bytes[2], bytes[3]),
        operand(bytes[4], bytes[5]),
    ]
}
