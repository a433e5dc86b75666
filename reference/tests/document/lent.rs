//! Calls with lent buffers, of which a refusal is expected.
//!
//! Each of these also sees to it that the refused call changed no lent byte.

use reference::{check, double, page, power_up, run, static_power_up, static_run, step, Refusal};

/// The answer of a call that turns back.
pub fn refused<T>(number: u32, place: usize) -> Result<T, Refusal> {
    Err(Refusal { number, place })
}

/// Checking refuses the image.
pub fn check_refuses(image: &[u8], number: u32, place: usize) {
    assert_eq!(check(image), refused(number, place));
}

/// Power-up refuses and leaves the state.
pub fn power_up_refuses(image: &[u8], state: &[u8], number: u32, place: usize) {
    let mut lent = state.to_vec();
    assert_eq!(power_up(image, &mut lent), refused(number, place));
    assert_eq!(lent, state);
}

/// A step refuses and leaves the state and the net buffer, whose length is
/// given here and whose bytes are 77.
pub fn step_refuses(
    image: &[u8],
    (state, row, nets): (&[u8], &[u8], usize),
    number: u32,
    place: usize,
) {
    let mut lent_state = state.to_vec();
    let mut lent_nets = vec![77; nets];
    let answer = step(image, &mut lent_state, row, &mut lent_nets);
    assert_eq!(answer, refused(number, place));
    assert_eq!(lent_state, state);
    assert_eq!(lent_nets, vec![77; nets]);
}

/// A run refuses and leaves the state and the output buffer, whose length is
/// given here and whose bytes are 77.
pub fn run_refuses(
    image: &[u8],
    k: usize,
    (state, rows, outputs): (&[u8], &[u8], usize),
    number: u32,
    place: usize,
) {
    let mut lent_state = state.to_vec();
    let mut lent_outputs = vec![77; outputs];
    let answer = run(image, k, &mut lent_state, rows, &mut lent_outputs);
    assert_eq!(answer, refused(number, place));
    assert_eq!(lent_state, state);
    assert_eq!(lent_outputs, vec![77; outputs]);
}

/// Static power-up refuses and leaves the state.
pub fn static_power_up_refuses(image: &[u8], state: &[u8], number: u32, place: usize) {
    let mut lent = state.to_vec();
    assert_eq!(static_power_up(image, &mut lent), refused(number, place));
    assert_eq!(lent, state);
}

/// A static run refuses and leaves the state and the output buffer, whose length
/// is given here and whose bytes are 77.
pub fn static_run_refuses(
    image: &[u8],
    k: usize,
    (state, rows, outputs): (&[u8], &[u8], usize),
    number: u32,
    place: usize,
) {
    let mut lent_state = state.to_vec();
    let mut lent_outputs = vec![77; outputs];
    let answer = static_run(image, k, &mut lent_state, rows, &mut lent_outputs);
    assert_eq!(answer, refused(number, place));
    assert_eq!(lent_state, state);
    assert_eq!(lent_outputs, vec![77; outputs]);
}

/// Doubling refuses and leaves the buffer, whose length is given here and whose
/// bytes are 77.
pub fn double_refuses(image: &[u8], length: usize, number: u32, place: usize) {
    let mut lent = vec![77; length];
    assert_eq!(double(image, &mut lent), refused(number, place));
    assert_eq!(lent, vec![77; length]);
}

/// Pages are refused and the page buffer is left, whose length is given here and
/// whose bytes are 77.
pub fn page_refuses(
    image: &[u8],
    k: usize,
    (record, length): (&[u8], usize),
    number: u32,
    place: usize,
) {
    let mut lent = vec![77; length];
    assert_eq!(page(image, k, record, &mut lent), refused(number, place));
    assert_eq!(lent, vec![77; length]);
}
