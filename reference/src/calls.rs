//! The calls power-up, step and run, with refusals 9 to 14, and 20 of request L7
//! of document 02.
//!
//! Every refusal is given before the first lent byte is written, so a call that
//! turns back changes no lent byte.

use crate::answers::{FirstFlow, Refusal, Verdict};
use crate::check::check;
use crate::cycle::{output_bytes, power_up_registers, start_byte, work_out};
use crate::gates::{Gates, GATES_ON_BYTES};
use crate::lent::{
    check_buffer_length, check_bytes, check_count, check_cycles, check_row_length,
    check_state_length,
};
use crate::netlist::Netlist;
use crate::state::{state_length, state_of};

/// Sets the registers to power-up, and the count to that of their bytes. What the
/// state buffer held is ignored, so this call meets 1 to 8 and 10, but neither 11
/// nor 20.
pub fn power_up(image: &[u8], state: &mut [u8]) -> Result<(), Refusal> {
    let netlist = check(image)?;
    check_state_length(state, state_length(netlist.registers))?;
    let registers = power_up_registers(&netlist, start_byte);
    state.copy_from_slice(&state_of(&registers));
    Ok(())
}

/// Steps one cycle: fills the N net bytes and rewrites the state. It meets 1 to
/// 8, 10, 11, 20 and 12 to 14, in this order.
pub fn step(
    image: &[u8],
    state: &mut [u8],
    row: &[u8],
    nets: &mut [u8],
) -> Result<Verdict, Refusal> {
    let netlist = check(image)?;
    let r = netlist.registers;
    check_state(state, r)?;
    check_row_length(row, netlist.inputs)?;
    check_bytes(row, is_above_3, 13)?;
    check_buffer_length(nets, netlist.nets.len())?;
    let cycle = work_out(&netlist, &GATES_ON_BYTES, &state[..r], row);
    nets.copy_from_slice(&cycle.nets);
    state.copy_from_slice(&state_of(&cycle.registers));
    Ok(cycle.verdict)
}

/// Runs k cycles: fills k * O output bytes and leaves the last state. It meets
/// 1 to 8 first and then 9 to 11, 20 and 12 to 14, also with k = 0, where the state
/// stays as it is.
pub fn run(
    image: &[u8],
    k: usize,
    state: &mut [u8],
    rows: &[u8],
    outputs: &mut [u8],
) -> Result<FirstFlow, Refusal> {
    let netlist = check(image)?;
    check_cycles(k)?;
    let r = netlist.registers;
    check_state(state, r)?;
    check_row_length(rows, k * netlist.inputs)?;
    check_bytes(rows, is_above_3, 13)?;
    check_buffer_length(outputs, k * netlist.outputs)?;
    let mut registers = state[..r].to_vec();
    let first = run_cycles(&netlist, &GATES_ON_BYTES, k, &mut registers, rows, outputs);
    state.copy_from_slice(&state_of(&registers));
    Ok(first)
}

/// Refusals 10, 11 and 20: the state of a step or a run with r registers. 11 looks
/// at the register bytes alone.
fn check_state(state: &[u8], r: usize) -> Result<(), Refusal> {
    check_state_length(state, state_length(r))?;
    check_bytes(&state[..r], is_above_3, 11)?;
    check_count(state, r)
}

/// The cycles of a run that drew no refusal, on the bytes or codes of its
/// registers. It goes on to the end after a flow and answers with the first one.
/// With I = 0 each row is empty and the cycles are counted all the same.
pub(crate) fn run_cycles(
    netlist: &Netlist,
    gates: &Gates,
    k: usize,
    registers: &mut [u8],
    rows: &[u8],
    outputs: &mut [u8],
) -> FirstFlow {
    let i = netlist.inputs;
    let o = netlist.outputs;
    let mut first = FirstFlow {
        cycle: k,
        verdict: Verdict::Clear,
    };
    for number in 0..k {
        let row = &rows[number * i..(number + 1) * i];
        let cycle = work_out(netlist, gates, registers, row);
        let bytes = output_bytes(netlist, &cycle.nets);
        outputs[number * o..(number + 1) * o].copy_from_slice(&bytes);
        registers.copy_from_slice(&cycle.registers);
        if first.verdict == Verdict::Clear && cycle.verdict != Verdict::Clear {
            first = FirstFlow {
                cycle: number,
                verdict: cycle.verdict,
            };
        }
    }
    first
}

/// A byte above 3 holds no value and mark. It draws 11 in a state, and 13 in rows
/// and in a record.
pub(crate) fn is_above_3(byte: u8) -> bool {
    byte > 3
}
