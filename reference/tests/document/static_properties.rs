//! What a static run says of the runs that fill its unknowns: request L4 of
//! document 02. It is tried on all states of small netlists and on many random
//! ones, with inverted pins and registers of all starts.

use crate::codes::*;
use crate::images::*;
use crate::random::{random_nets, Numbers};
use crate::samples::*;
use crate::states::{registers, with_count};
use reference::{FirstFlow, Verdict};

/// Where a flow stands among all flows: its cycle and its net. A clear answer
/// stands behind every flow, since its cycle is K.
fn place(answer: FirstFlow) -> (usize, usize) {
    match answer.verdict {
        Verdict::Clear => (answer.cycle, 0),
        Verdict::Flow(net) => (answer.cycle, net),
    }
}

/// What a static run gave covers what another run gave, with as many cycles. The
/// first flow of the other, if it has one, does not stand before that of the
/// static run, so that it is clear if the static run is. The outputs and the
/// registers at the end cover the other's.
fn covers_ran(static_ran: &Ran, ran: &Ran) {
    let (answer, outputs, state) = static_ran;
    assert!(place(*answer) <= place(ran.0));
    if answer.verdict == Verdict::Clear {
        assert_eq!(*answer, ran.0);
    }
    assert!(all_cover(outputs, &ran.1), "{outputs:?}, {:?}", ran.1);
    assert!(all_cover(state, &ran.2), "{state:?}, {:?}", ran.2);
}

// Each cycle has its own fillings. The static runs that are clear although they
// have an unknown code among their outputs, and those with a flow, are counted,
// so that the claim is tried on both.
#[test]
fn a_static_run_covers_each_run_that_fills_it() {
    let mut numbers = Numbers(21);
    let (mut clear, mut flows) = (0, 0);
    for source in samples(&mut numbers) {
        let rows = numbers.codes(8 * source.inputs);
        let state = numbers.codes(source.registers);
        let static_ran = source.static_run(&state, 8, &rows);
        let unknown = static_ran.1.iter().any(|code| *code >= 4);
        match static_ran.0.verdict {
            Verdict::Clear if unknown => clear += 1,
            Verdict::Clear => {}
            Verdict::Flow(_) => flows += 1,
        }
        for _ in 0..8 {
            let (state, rows) = (fill(&mut numbers, &state), fill(&mut numbers, &rows));
            covers_ran(&static_ran, &source.run_registers(&state, 8, &rows));
        }
    }
    assert!(clear > 50 && flows > 50, "{clear} and {flows}");
}

// With trusted codes alone, 0, 1 and 4, no code is marked in any cycle, since no
// gate marks trusted pins. So every static run is clear, as every run is.
#[test]
fn trusted_codes_are_clear() {
    let mut numbers = Numbers(22);
    for source in samples(&mut numbers) {
        let mut trusted = |length: usize| -> Vec<u8> {
            let code = |_| [0, 1, 4][numbers.below(3)];
            (0..length).map(code).collect()
        };
        let rows = trusted(8 * source.inputs);
        let state = trusted(source.registers);
        let (answer, outputs, state) = source.static_run(&state, 8, &rows);
        assert_eq!((answer.cycle, answer.verdict), (8, Verdict::Clear));
        assert!(outputs.iter().chain(&state).all(|code| mark_of(*code) == 0));
    }
}

// Without unknowns the answer and all bytes are those of the run, but for the
// count, which a static state does not have.
#[test]
fn without_unknowns_a_static_run_is_the_run() {
    let mut numbers = Numbers(23);
    for source in samples(&mut numbers) {
        let rows = numbers.bytes(8 * source.inputs);
        let state = numbers.bytes(source.registers);
        let static_ran = source.static_run(&state, 8, &rows);
        assert_eq!(static_ran, source.run_registers(&state, 8, &rows));
    }
}

// Without start 2, too, static power-up gives the registers the bytes of power-up,
// and the bytes that follow are those of the run. Operand b of a register is its
// start.
#[test]
fn without_start_2_static_power_up_is_power_up() {
    let mut numbers = Numbers(24);
    for _ in 0..600 {
        let n = 1 + numbers.below(30);
        let mut nets = random_nets(&mut numbers, n);
        for net in nets.iter_mut().filter(|net| net.0 == REG) {
            net.2 %= 2;
        }
        let source = sample(&nets);
        let state = source.static_power_up();
        assert_eq!(state, registers(&source.power_up()));
        let rows = numbers.bytes(8 * source.inputs);
        let static_ran = source.static_run(&state, 8, &rows);
        assert_eq!(static_ran, source.run_registers(&state, 8, &rows));
    }
}

// Static power-up differs from power-up at the registers with start 2 alone, by 6
// for 2. Power-up fills it, and so does the state with 3 for some of them. Runs
// from both are covered.
#[test]
fn a_static_run_from_static_power_up_covers_runs_from_power_up() {
    let mut numbers = Numbers(25);
    for source in samples(&mut numbers) {
        let woken = source.static_power_up();
        let known = |code: &u8| if *code == 6 { 2 } else { *code };
        let plain: Vec<u8> = woken.iter().map(known).collect();
        assert_eq!(source.power_up(), with_count(&plain));
        let rows = numbers.codes(8 * source.inputs);
        let static_ran = source.static_run(&woken, 8, &rows);
        for state in [plain, fill(&mut numbers, &woken)] {
            let rows = fill(&mut numbers, &rows);
            covers_ran(&static_ran, &source.run_registers(&state, 8, &rows));
        }
    }
}

// A list of static runs of 0 to 4 cycles hands its state on, and so does a list
// of runs that fills its rows and its first state. Each run of the first covers
// the one of the second, although the states between them are its own.
#[test]
fn lists_of_static_runs_cover_lists_of_runs() {
    let mut numbers = Numbers(26);
    for source in samples(&mut numbers) {
        let mut static_state = source.static_power_up();
        let mut state = fill(&mut numbers, &static_state);
        for _ in 0..6 {
            let k = numbers.below(5);
            let rows = numbers.codes(k * source.inputs);
            let static_ran = source.static_run(&static_state, k, &rows);
            let ran = source.run_registers(&state, k, &fill(&mut numbers, &rows));
            covers_ran(&static_ran, &ran);
            (static_state, state) = (static_ran.2, ran.2);
        }
    }
}

// The same for two lists of static runs, of which the first has codes that cover
// those of the second: less known or more marked.
#[test]
fn wider_codes_give_wider_codes() {
    let mut numbers = Numbers(27);
    for source in samples(&mut numbers) {
        let mut state = numbers.codes(source.registers);
        let mut wide_state = widen(&mut numbers, &state);
        for _ in 0..4 {
            let k = numbers.below(5);
            let rows = numbers.codes(k * source.inputs);
            let wide = source.static_run(&wide_state, k, &widen(&mut numbers, &rows));
            let narrow = source.static_run(&state, k, &rows);
            covers_ran(&wide, &narrow);
            (wide_state, state) = (wide.2, narrow.2);
        }
    }
}

// One static run and the same cycles one by one give the same codes.
#[test]
fn a_static_run_is_its_cycles() {
    let mut numbers = Numbers(28);
    for source in samples(&mut numbers) {
        let rows = numbers.codes(8 * source.inputs);
        let start = numbers.codes(source.registers);
        let mut state = start.clone();
        let mut first = (8, Verdict::Clear);
        let mut expected = Vec::new();
        for cycle in 0..8 {
            let (answer, outputs, after) = source.static_run(&state, 1, source.row(&rows, cycle));
            if first.1 == Verdict::Clear && answer.verdict != Verdict::Clear {
                first = (cycle, answer.verdict);
            }
            expected.extend(outputs);
            state = after;
        }
        let (answer, outputs, after) = source.static_run(&start, 8, &rows);
        assert_eq!((answer.cycle, answer.verdict), first);
        assert_eq!((outputs, after), (expected, state));
    }
}

/// A static run of two cycles from each of the 216 states of three registers
/// covers the runs from all states that fill it.
fn covers_from_all_states(source: &Sample) {
    for codes in all_code_triples() {
        let static_ran = source.static_run(&codes, 2, &[]);
        for state in all_fillings(&codes) {
            covers_ran(&static_ran, &source.run_registers(&state, 2, &[]));
        }
    }
}

// Three REGs with start 2 that hold their bytes, one gate on them, and an OUT,
// with each choice of the gate's pins inverted.
#[test]
fn every_gate_covers_from_all_states() {
    for source in gates_on(REG) {
        covers_from_all_states(&source);
    }
}

// Three REGs with start 2 that pass their bytes on in a ring, with each choice of
// their pins inverted.
#[test]
fn registers_with_inverted_pins_cover_from_all_states() {
    for source in rings() {
        covers_from_all_states(&source);
    }
}
