//! The six calls that check, cycle and double.

use crate::kinds::{AND, CONST, INPUT, MUX, NOT, OR, OUT, REG, XOR};
use crate::{answers, ffi, image_length, DoubledSize, FirstFlow, Refusal, Verdict};

/// Checks whether an image is a netlist.
///
/// # Errors
///
/// Turns back with one of the refusals 1 to 8.
///
/// # Example
///
/// ```
/// use tracker::{check, encode, kinds, Net, Reason, Refusal};
///
/// // One net, a CONST 1.
/// let image = encode(&[Net::new(kinds::CONST, 1, 0, 0)]);
/// assert_eq!(check(&image), Ok(()));
///
/// let refusal = Refusal { reason: Reason::ImageLength, place: 0 };
/// assert_eq!(check(&image[..14]), Err(refusal));
/// ```
pub fn check(image: &[u8]) -> Result<(), Refusal> {
    answers::done(ffi::check(image))
}

/// Sets each register to power-up: its start with mark 0, or value 0 with mark 1
/// where none is given.
///
/// So a register without a start wakes untrusted, and a clear verdict holds
/// whatever it held. The state has R + 2 bytes, of which the last two take the
/// number of marked registers. What they were is not looked at.
///
/// # Errors
///
/// Turns back with one of the refusals 1 to 8 and 10.
///
/// # Example
///
/// ```
/// use tracker::{encode, kinds, power_up, Net};
///
/// // Two REGs that take their own bytes, one with start 1 and one without.
/// let image = encode(&[Net::new(kinds::REG, 0, 1, 0), Net::new(kinds::REG, 1, 2, 0)]);
/// let mut state = [255; 4];
/// power_up(&image, &mut state)?;
/// assert_eq!(state, [1, 2, 1, 0]);
/// # Ok::<(), tracker::Refusal>(())
/// ```
pub fn power_up(image: &[u8], state: &mut [u8]) -> Result<(), Refusal> {
    answers::done(ffi::power_up(image, state))
}

/// Takes one cycle: works out all nets, gives the verdict, and then every
/// register takes the byte that its pin reads, all together.
///
/// The state has R + 2 bytes and is rewritten, with the number of registers that
/// are marked after the clock. The row has I bytes, and `nets` takes the bytes of
/// the N nets.
///
/// # Errors
///
/// Turns back with one of the refusals 1 to 8, 10 to 14 and 20. 20 is tried
/// directly after 11.
///
/// # Example
///
/// ```
/// use tracker::{encode, kinds, marked_registers, step, Net, Verdict};
///
/// // An INPUT, a protected OUT on it, and a REG that takes it.
/// let image = encode(&[
///     Net::new(kinds::INPUT, 0, 0, 0),
///     Net::new(kinds::OUT, 0, 1, 0),
///     Net::new(kinds::REG, 0, 0, 0),
/// ]);
/// let (mut state, mut nets) = ([0; 3], [0; 3]);
/// let verdict = step(&image, &mut state, &[3], &mut nets)?;
/// assert_eq!(verdict, Verdict::Flow { net: 1 });
/// assert_eq!((nets, state), ([3, 3, 0], [3, 1, 0]));
/// assert_eq!(marked_registers(&state), Some(1));
///
/// assert!(step(&image, &mut state, &[1], &mut nets)?.is_clear());
/// assert_eq!((nets, state), ([1, 1, 3], [1, 0, 0]));
/// # Ok::<(), tracker::Refusal>(())
/// ```
pub fn step(
    image: &[u8],
    state: &mut [u8],
    row: &[u8],
    nets: &mut [u8],
) -> Result<Verdict, Refusal> {
    answers::step(ffi::step(image, state, row, nets))
}

/// Takes K cycles, at most [`MOST_CYCLES`](crate::MOST_CYCLES), and answers with the first flow. It
/// goes on to the end after a flow.
///
/// The state has R + 2 bytes and is left as after the last cycle, with the number
/// of registers that are then marked. `rows` has K × I bytes, cycle after cycle, and
/// `outputs` takes K × O bytes, cycle after cycle and each cycle in output order.
///
/// # Errors
///
/// Turns back with one of the refusals 1 to 14 and 20. 20 is tried directly after
/// 11, also where K is 0, which changes no byte.
///
/// # Example
///
/// ```
/// use tracker::{encode, kinds, run, FirstFlow, Net, Verdict};
///
/// // An INPUT, and a protected OUT on it.
/// let image = encode(&[Net::new(kinds::INPUT, 0, 0, 0), Net::new(kinds::OUT, 0, 1, 0)]);
/// let mut outputs = [0; 3];
/// let answer = run(&image, 3, &mut [0, 0], &[0, 3, 1], &mut outputs)?;
/// let verdict = Verdict::Flow { net: 1 };
/// assert_eq!(answer, FirstFlow { cycle: 1, verdict });
/// assert_eq!(outputs, [0, 3, 1]);
/// # Ok::<(), tracker::Refusal>(())
/// ```
pub fn run(
    image: &[u8],
    k: usize,
    state: &mut [u8],
    rows: &[u8],
    outputs: &mut [u8],
) -> Result<FirstFlow, Refusal> {
    answers::run(ffi::run(image, k, state, rows, outputs))
}

/// Says how big the doubled netlist gets, and writes nothing.
///
/// The figures are those of the image that [`double`] then writes. The nets and
/// the nets of each kind are asked for one by one: ten calls of the static
/// library, each of which checks the image anew, or one where it is refused.
///
/// # Errors
///
/// Turns back with one of the refusals 1 to 8 and 15, as [`double`] does.
///
/// # Example
///
/// ```
/// use tracker::{doubled_size, encode, kinds, Net};
///
/// // An INPUT becomes two, and an OR becomes three ORs, two NOTs and three ANDs.
/// let image = encode(&[Net::new(kinds::INPUT, 0, 0, 0), Net::new(kinds::OR, 0, 0, 0)]);
/// let size = doubled_size(&image)?;
/// assert_eq!(size.nets, 10);
/// assert_eq!(size.bytes, 8 + 7 * 10);
/// assert_eq!((size.inputs, size.ors, size.nots, size.ands), (2, 3, 2, 3));
/// assert_eq!(size.muxes, 0);
/// # Ok::<(), tracker::Refusal>(())
/// ```
pub fn doubled_size(image: &[u8]) -> Result<DoubledSize, Refusal> {
    let nets = answers::doubled_size(ffi::doubled_size(image))?;
    let of_kind = |kind| answers::doubled_kind(ffi::doubled_kind(image, usize::from(kind)));
    Ok(DoubledSize {
        nets,
        bytes: image_length(nets),
        consts: of_kind(CONST)?,
        inputs: of_kind(INPUT)?,
        registers: of_kind(REG)?,
        nots: of_kind(NOT)?,
        ands: of_kind(AND)?,
        ors: of_kind(OR)?,
        xors: of_kind(XOR)?,
        muxes: of_kind(MUX)?,
        outputs: of_kind(OUT)?,
    })
}

/// Writes the image of the doubled netlist.
///
/// The buffer has exactly the doubled image's length, the `bytes` of its
/// [`doubled_size`].
///
/// Register j becomes two: 2j for its value, with the same start, and 2j + 1 for
/// its mark, with start 1 where none is given and 0 otherwise. The values at
/// outputs 2j and 2j + 1 are the value and the mark of the source's output j.
/// Marks within the doubled netlist say nothing of the source: register 2j
/// without a start wakes untrusted there. Nor does the count in its state, which
/// has 2 × R + 2 bytes.
///
/// Of the pins that stand for a pin of the source, those on a value net are
/// inverted where that pin is, and those on a mark net never are.
///
/// # Errors
///
/// Turns back with one of the refusals 1 to 8 and 15 to 17.
///
/// # Example
///
/// ```
/// use tracker::{double, doubled_size, encode, kinds, Image, Net};
///
/// // An INPUT, and a protected OUT on it, become four nets.
/// let image = encode(&[Net::new(kinds::INPUT, 0, 0, 0), Net::new(kinds::OUT, 0, 1, 0)]);
/// let mut doubled = vec![0; doubled_size(&image)?.bytes];
/// double(&image, &mut doubled)?;
/// let doubled = Image::of(&doubled).unwrap();
/// assert_eq!(doubled.sizes().outputs, 2);
/// assert_eq!(doubled.kinds(), [kinds::INPUT, kinds::INPUT, kinds::OUT, kinds::OUT]);
/// # Ok::<(), tracker::Refusal>(())
/// ```
pub fn double(image: &[u8], buffer: &mut [u8]) -> Result<(), Refusal> {
    answers::done(ffi::double(image, buffer))
}
