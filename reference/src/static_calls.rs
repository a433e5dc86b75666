//! The calls static power-up and static run: request L4 of document 02.
//!
//! State, rows and outputs are codes, and the state is those of the registers
//! alone, without the count of request L7. A static run has the cycle of a run,
//! with the gates of a static run, and turns back as a run does, with 18 in place
//! of 11 and 13, and without 20. The mark of a code stands where that of a byte
//! does, so that 6 is marked and 4 is not, and a verdict is found as in a run.

use crate::answers::{FirstFlow, Refusal};
use crate::calls::run_cycles;
use crate::check::check;
use crate::cycle::{power_up_registers, start_byte};
use crate::lent::{
    check_buffer_length, check_bytes, check_cycles, check_row_length, check_state_length,
};
use crate::netlist::Start;
use crate::static_gates::{GATES_ON_CODES, UNKNOWN_UNTRUSTED};

/// Sets the registers to static power-up. What the state buffer held is ignored,
/// so this call meets 1 to 8 and 10, but not 18.
pub fn static_power_up(image: &[u8], state: &mut [u8]) -> Result<(), Refusal> {
    let netlist = check(image)?;
    check_state_length(state, netlist.registers)?;
    state.copy_from_slice(&power_up_registers(&netlist, start_code));
    Ok(())
}

/// Runs k cycles on codes: fills k * O output codes and leaves the last state. It
/// meets 1 to 8 first and then 9, 10, 18 for the state, 12, 18 for the rows, and
/// 14, also with k = 0.
pub fn static_run(
    image: &[u8],
    k: usize,
    state: &mut [u8],
    rows: &[u8],
    outputs: &mut [u8],
) -> Result<FirstFlow, Refusal> {
    let netlist = check(image)?;
    check_cycles(k)?;
    check_state_length(state, netlist.registers)?;
    check_bytes(state, is_no_code, 18)?;
    check_row_length(rows, k * netlist.inputs)?;
    check_bytes(rows, is_no_code, 18)?;
    check_buffer_length(outputs, k * netlist.outputs)?;
    Ok(run_cycles(
        &netlist,
        &GATES_ON_CODES,
        k,
        state,
        rows,
        outputs,
    ))
}

/// The code with which a register starts. With start 2 it is an unknown
/// untrusted bit. Any other start is as in power-up.
fn start_code(start: Start) -> u8 {
    match start {
        Start::NoneGiven => UNKNOWN_UNTRUSTED,
        given => start_byte(given),
    }
}

/// A byte that is 5 or above 6 is no code. It draws 18.
fn is_no_code(byte: u8) -> bool {
    byte == 5 || byte > 6
}
