//! Registers that wake unknown: request L2 of document 02. A register with start
//! 2 powers up with value 0 and mark 1, and its doubled mark register starts at
//! 1. A net's byte is value + 2 * mark, so the register's byte is 2.

use crate::images::*;
use crate::samples::{sample, Sample};
use crate::states::with_count;
use reference::{double, doubled_size, listing, power_up, run, step, Verdict};

/// One register with this start, which holds its byte, and a protected OUT.
fn held(start: u16) -> Sample {
    sample(&[(REG, 0, start, 0), (OUT, 0, 1, 0)])
}

// The register bytes are in net order, each with the start of its own register,
// and two of them are marked.
#[test]
fn each_register_wakes_by_its_own_start() {
    let source = sample(&[
        (REG, 1, 2, 0),
        (INPUT, 0, 0, 0),
        (REG, 1, 0, 0),
        (REG, 1, 1, 0),
        (NOT, 0, 0, 0),
        (REG, 1, 2, 0),
    ]);
    assert_eq!(source.power_up(), [2, 0, 1, 2, 2, 0]);
}

// The OUT passes the register's byte on. With start 2 it is marked.
#[test]
fn a_register_that_wakes_unknown_is_a_flow_in_cycle_0() {
    let cases = [
        (0, 0, Verdict::Clear),
        (1, 1, Verdict::Clear),
        (2, 2, Verdict::Flow(1)),
    ];
    for (start, byte, verdict) in cases {
        let source = held(start);
        let state = with_count(&[byte]);
        assert_eq!(source.power_up(), state);
        let stepped = source.step(&state, &[]);
        assert_eq!(stepped, (verdict, vec![byte, byte], state));
    }
}

// A run of no cycles changes nothing and is clear, also with an unknown register.
#[test]
fn a_run_of_no_cycles_is_clear() {
    let (answer, outputs, state) = held(2).run(&[2, 1, 0], 0, &[]);
    assert_eq!((answer.cycle, answer.verdict), (0, Verdict::Clear));
    assert!(outputs.is_empty());
    assert_eq!(state, [2, 1, 0]);
}

// The gates on a register of byte 2, with CONSTs 0 and 1. NOT 2 is 3. AND(2, 0)
// is 0 and AND(2, 1) is 2. OR(2, 0) is 2 and OR(2, 1) is 1. XOR(2, 1) is 3. With
// the register as the select of a MUX, MUX(0, 0, 2) is 0, MUX(0, 1, 2) is 2 and
// MUX(1, 1, 2) is 1.
#[test]
fn gates_on_an_unknown_register() {
    let source = sample(&[
        (REG, 0, 2, 0),
        (CONST, 0, 0, 0),
        (CONST, 1, 0, 0),
        (NOT, 0, 0, 0),
        (AND, 0, 1, 0),
        (AND, 0, 2, 0),
        (OR, 0, 1, 0),
        (OR, 0, 2, 0),
        (XOR, 0, 2, 0),
        (MUX, 1, 1, 0),
        (MUX, 1, 2, 0),
        (MUX, 2, 2, 0),
    ]);
    let (_, nets, _) = source.step(&source.power_up(), &[]);
    assert_eq!(nets, [2, 0, 1, 3, 0, 2, 2, 1, 3, 0, 2, 1]);
}

// The start acts at power-up alone. A step takes the state that it is lent, of
// whatever byte, also for a register with start 2.
#[test]
fn a_lent_state_is_taken_as_it_is() {
    for start in 0..=2 {
        for byte in 0..=3 {
            let lent = with_count(&[byte]);
            let (_, nets, state) = held(start).step(&lent, &[]);
            assert_eq!((nets, state), (vec![byte, byte], lent));
        }
    }
}

// The counter with start 2 and its rows 2, 0, 1, 0, by hand:
//
// - Row 2, register 2: NOT 2 is 3, NOT 2 is 3, AND(3, 3) is 3, OUT 2. Then 3.
// - The other cycles are those of the counter, whose register is 3 as well: the
//   OUTs are 3, 2, 0, and the register is 1 at the end.
#[test]
fn the_counter_without_a_reset() {
    // Operand b of net 1 is at byte 14 + 6 + 2.
    let mut image = COUNTER;
    image[22] = 2;
    let mut state = [77; 3];
    let mut outputs = [77; 4];
    power_up(&image, &mut state).unwrap();
    assert_eq!(state, [2, 1, 0]);
    let answer = run(&image, 4, &mut state, &COUNTER_ROWS, &mut outputs).unwrap();
    assert_eq!((answer.cycle, answer.verdict), (0, Verdict::Flow(5)));
    assert_eq!(outputs, [2, 3, 2, 0]);
    assert_eq!(state, [1, 0, 0]);
    let mut printed = Vec::new();
    listing(&image, &COUNTER_ROWS[..], &mut printed).unwrap();
    let expected = "0 2 flow 5\n1 3 flow 5\n2 2 flow 5\n3 0 clear\nend 4\n";
    assert_eq!(String::from_utf8(printed).unwrap(), expected);
}

// One register that holds its byte: 0 REG(0, start b); 1 REG(1, start of the
// mark). N 2, I 0, R 2, O 0. At its own power-up the doubled netlist's value
// register with start 2 is marked, so its own count is 1, and its mark register has
// the byte 1.
#[test]
fn doubled_registers_byte_for_byte() {
    let cases = [
        (0, 0, [0, 0, 0, 0]),
        (1, 0, [1, 0, 0, 0]),
        (2, 1, [2, 1, 1, 0]),
    ];
    for (start, mark, woken) in cases {
        let mut buffer = [77; 22];
        let image = counted(&[(REG, 0, start, 0)]);
        assert_eq!(double(&image, &mut buffer), Ok(()));
        #[rustfmt::skip]
        let expected = [
            2, 0, 0, 0, 2, 0, 0, 0,
            2, 2,
            0, 0, start as u8, 0, 0, 0,
            1, 0, mark, 0, 0, 0,
        ];
        assert_eq!(buffer, expected);
        let mut state = [77; 4];
        power_up(&buffer, &mut state).unwrap();
        assert_eq!(state, woken);
    }
}

// Doubled twice, the register with start 2 becomes two with starts 2 and 1, and
// then four with starts 2, 1, 1 and 0, which wake with the bytes 2, 1, 1, 0.
#[test]
fn an_unknown_register_doubled_twice() {
    let twice = sample(&[(REG, 0, 2, 0)]).doubled().doubled();
    let expected = counted(&[
        (REG, 0, 2, 0),
        (REG, 1, 1, 0),
        (REG, 2, 1, 0),
        (REG, 3, 0, 0),
    ]);
    assert_eq!(twice.image, expected);
    assert_eq!(twice.power_up(), [2, 1, 1, 0, 1, 0]);
}

// The doubled OUTs are free, so the marked value register gives no flow there:
// groups REG, REG and OUT, OUT with the registers 2, 1.
#[test]
fn the_marked_value_register_gives_no_flow() {
    let doubled = held(2).doubled();
    let mut state = doubled.power_up();
    let mut nets = [77; 4];
    let verdict = step(&doubled.image, &mut state, &[], &mut nets);
    assert_eq!(verdict, Ok(Verdict::Clear));
    assert_eq!(nets, [2, 1, 2, 1]);
    assert_eq!(state, [2, 1, 1, 0]);
}

// A start moves no figure: two nets for each REG and each OUT, and 8 + 7 * 4
// bytes.
#[test]
fn the_figures_are_the_same_for_every_start() {
    for start in 0..=2 {
        let size = doubled_size(&held(start).image).unwrap();
        assert_eq!((size.nets, size.bytes), (4, 36));
        assert_eq!(size.kinds, [0, 0, 2, 0, 0, 0, 0, 0, 2]);
    }
}
