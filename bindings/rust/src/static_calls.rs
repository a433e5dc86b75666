//! The two calls on codes.

use crate::{answers, ffi, FirstFlow, Refusal};

/// Sets each register to static power-up: its start with mark 0, or the code
/// [`UNKNOWN_UNTRUSTED`](crate::codes::UNKNOWN_UNTRUSTED) where none is given.
///
/// The state has R bytes, without a count. What they were is not looked at.
///
/// # Errors
///
/// Turns back with one of the refusals 1 to 8 and 10.
///
/// # Example
///
/// ```
/// use tracker::{codes, encode, kinds, static_power_up, Net};
///
/// // Two REGs that take their own codes, one with start 1 and one without.
/// let image = encode(&[Net::new(kinds::REG, 0, 1, 0), Net::new(kinds::REG, 1, 2, 0)]);
/// let mut state = [255; 2];
/// static_power_up(&image, &mut state)?;
/// assert_eq!(state, [1, codes::UNKNOWN_UNTRUSTED]);
/// # Ok::<(), tracker::Refusal>(())
/// ```
pub fn static_power_up(image: &[u8], state: &mut [u8]) -> Result<(), Refusal> {
    answers::done(ffi::static_power_up(image, state))
}

/// Takes K cycles on [`codes`](crate::codes), at most
/// [`MOST_CYCLES`](crate::MOST_CYCLES), and answers with the first flow. It goes
/// on to the end after a flow.
///
/// The state has R bytes, without a count, and rows and outputs have the lengths of
/// a [`run`](crate::run). At each gate every unknown pin is filled both ways,
/// independently of the other pins: the value is known if all fillings agree in it,
/// and the mark is 1 if any filling marks.
///
/// # What it says of runs
///
/// A run fills the unknowns if it takes as many cycles, with 0 or 1 in its state
/// and rows where this call has 4, with 2 or 3 where this call has 6, chosen for
/// each register and anew for each input in each cycle, and with the same byte
/// everywhere else.
///
/// - If the verdict here is clear, every such run is clear.
/// - Whatever the verdict, where an output or the state left has a known value, it
///   is the value that each such run has there; and where it is not marked, no
///   such run has a mark there.
/// - Where the state and the rows have bytes 0 to 3 alone, answer and bytes are
///   those of [`run`](crate::run), but for the count.
///
/// A flow may be one that no such run has, since each gate is filled by itself.
///
/// # Errors
///
/// Turns back with one of the refusals 1 to 10, 12, 14 and 18. They are tried in
/// this order: 1 to 10, 18 for the state, 12, 18 for the rows, and 14.
///
/// # Example
///
/// ```
/// use tracker::codes::{UNKNOWN_TRUSTED, UNKNOWN_UNTRUSTED};
/// use tracker::{encode, kinds, static_run, FirstFlow, Net, Verdict};
///
/// // Two INPUTs, their AND, and a protected OUT on it.
/// let image = encode(&[
///     Net::new(kinds::INPUT, 0, 0, 0),
///     Net::new(kinds::INPUT, 0, 0, 0),
///     Net::new(kinds::AND, 0, 1, 0),
///     Net::new(kinds::OUT, 2, 1, 0),
/// ]);
/// let mut outputs = [0; 2];
///
/// // The AND is unknown, and then, with a trusted 0, a trusted 0 in any case.
/// let rows = [UNKNOWN_TRUSTED, 1, UNKNOWN_UNTRUSTED, 0];
/// let answer = static_run(&image, 2, &mut [], &rows, &mut outputs)?;
/// assert!(answer.verdict.is_clear());
/// assert_eq!(outputs, [UNKNOWN_TRUSTED, 0]);
///
/// // The AND is marked for one of the two values of the first input.
/// let rows = [UNKNOWN_TRUSTED, 0, UNKNOWN_TRUSTED, 2];
/// let answer = static_run(&image, 2, &mut [], &rows, &mut outputs)?;
/// let verdict = Verdict::Flow { net: 3 };
/// assert_eq!(answer, FirstFlow { cycle: 1, verdict });
/// assert_eq!(outputs, [0, 2]);
/// # Ok::<(), tracker::Refusal>(())
/// ```
pub fn static_run(
    image: &[u8],
    k: usize,
    state: &mut [u8],
    rows: &[u8],
    outputs: &mut [u8],
) -> Result<FirstFlow, Refusal> {
    answers::run(ffi::static_run(image, k, state, rows, outputs))
}
