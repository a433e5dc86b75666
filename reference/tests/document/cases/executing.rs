//! A case, executed with the calls of the reference.

use super::calls::Call;
use super::printing::{figures, image, lent, outcome, run_answer, step_answer};
use super::printing::{page_text, whether_changed};
use super::reading::Case;
use crate::codes::CODES;
use crate::images::{AND, MUX, NOT, OR, OUT, XOR};
use reference::{and_byte, mux_byte, not_byte, or_byte, xor_byte};
use reference::{and_code, mux_code, not_code, or_code, xor_code};
use reference::{check, double, doubled_size, page, power_up, run, step};
use reference::{static_power_up, static_run, FirstFlow, Refusal};
use std::fmt::Write;

/// Power-up or static power-up.
type PowerUp = fn(&[u8], &mut [u8]) -> Result<(), Refusal>;

/// Run or static run.
type Run = fn(&[u8], usize, &mut [u8], &[u8], &mut [u8]) -> Result<FirstFlow, Refusal>;

/// The image of a case, or its doubled image, where the case has bytes for it.
fn source(case: &Case) -> Vec<u8> {
    if case.doubled.is_empty() {
        return case.image.clone();
    }
    let mut doubled = case.doubled.clone();
    double(&case.image, &mut doubled).unwrap();
    doubled
}

/// The byte of a gate or OUT for the pins a, b and c. An OUT passes its pin on.
fn gate_byte(kind: u8, a: u8, b: u8, c: u8) -> u8 {
    match kind {
        NOT => not_byte(a),
        AND => and_byte(a, b),
        OR => or_byte(a, b),
        XOR => xor_byte(a, b),
        MUX => mux_byte(a, b, c),
        OUT => a,
        _ => panic!("no gate: {kind}"),
    }
}

/// The static code of a gate or OUT for the pins a, b and c.
fn gate_code(kind: u8, a: u8, b: u8, c: u8) -> u8 {
    match kind {
        NOT => not_code(a),
        AND => and_code(a, b),
        OR => or_code(a, b),
        XOR => xor_code(a, b),
        MUX => mux_code(a, b, c),
        OUT => a,
        _ => panic!("no gate: {kind}"),
    }
}

/// Prints what a gate of the case's kind gives for each three pins. Each pin has
/// one of the given bytes.
fn execute_gate(case: &Case, bytes: &[u8], gate: fn(u8, u8, u8, u8) -> u8, page: &mut String) {
    let kind = u8::try_from(case.number).unwrap();
    assert_eq!(case.rows.len() % 3, 0, "{}", case.name);
    page.push_str(": ");
    for pins in case.rows.chunks(3) {
        assert!(pins.iter().all(|pin| bytes.contains(pin)), "{}", case.name);
        write!(page, "{}", gate(kind, pins[0], pins[1], pins[2])).unwrap();
    }
}

fn execute_power_up(case: &Case, power_up: PowerUp, page: &mut String) {
    let mut state = case.state.clone();
    outcome(page, power_up(&source(case), &mut state));
    lent(page, ", state", &state);
}

fn execute_step(case: &Case, page: &mut String) {
    let mut state = case.state.clone();
    let mut nets = case.buffer.clone();
    step_answer(page, step(&source(case), &mut state, &case.rows, &mut nets));
    lent(page, ", state", &state);
    lent(page, ", nets", &nets);
}

fn execute_run(case: &Case, run: Run, page: &mut String) {
    let mut state = case.state.clone();
    let mut outputs = case.buffer.clone();
    let image = source(case);
    let answer = run(&image, case.number, &mut state, &case.rows, &mut outputs);
    run_answer(page, answer);
    lent(page, ", state", &state);
    lent(page, ", outputs", &outputs);
}

fn execute_double(case: &Case, page: &mut String) {
    let mut buffer = case.buffer.clone();
    let answer = double(&source(case), &mut buffer);
    outcome(page, answer);
    match answer {
        Ok(()) => image(page, &buffer, case.number),
        Err(_) => whether_changed(page, &buffer),
    }
}

/// The record is the list `rows`.
fn execute_write(case: &Case, text: &mut String) {
    let mut buffer = case.buffer.clone();
    let answer = page(&source(case), case.number, &case.rows, &mut buffer);
    outcome(text, answer);
    match answer {
        Ok(()) => page_text(text, &buffer),
        Err(_) => whether_changed(text, &buffer),
    }
}

/// Prints what a case prints behind its name.
pub fn execute(case: &Case, page: &mut String) {
    match case.call {
        Call::Gate => execute_gate(case, &[0, 1, 2, 3], gate_byte, page),
        Call::Check => outcome(page, check(&source(case)).map(|_| ())),
        Call::PowerUp => execute_power_up(case, power_up, page),
        Call::Step => execute_step(case, page),
        Call::Run => execute_run(case, run, page),
        Call::Double => execute_double(case, page),
        Call::Figures => figures(page, doubled_size(&source(case))),
        Call::Table => execute_gate(case, &CODES, gate_code, page),
        Call::Awake => execute_power_up(case, static_power_up, page),
        Call::Unknown => execute_run(case, static_run, page),
        Call::Write => execute_write(case, page),
    }
}
