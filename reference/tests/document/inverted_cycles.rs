//! OUTs and registers with inverted pins, and whole cycles: request L3 of
//! document 02. A pin on a net of byte 0, 1, 2 or 3 reads 1, 0, 3 or 2.

use crate::images::*;
use crate::pins::inverted;
use crate::samples::{sample, Sample};
use crate::states::with_count;
use reference::{listing, Verdict};

/// What an inverted pin reads of the bytes 0, 1, 2 and 3.
const READS: [u8; 4] = [1, 0, 3, 2];

/// The lines that the listing of an image prints for these rows.
fn lines(image: &[u8], rows: &[u8]) -> String {
    let mut printed = Vec::new();
    listing(image, rows, &mut printed).unwrap();
    String::from_utf8(printed).unwrap()
}

// An OUT passes on what its pin reads, and a protected one is a flow if its mark
// is 1, whatever the value is. Net 2 reads the OUT as it is, net 3 inverted: it
// is then the INPUT's byte again.
#[test]
fn an_out_with_an_inverted_pin() {
    for (policy, flow) in [(0, Verdict::Clear), (1, Verdict::Flow(1))] {
        let source = sample(&[
            (INPUT, 0, 0, 0),
            (OUT, inverted(0), policy, 0),
            (OUT, 1, 0, 0),
            (OUT, inverted(1), 0, 0),
        ]);
        let verdicts = [Verdict::Clear, Verdict::Clear, flow, flow];
        for byte in 0..=3 {
            let read = READS[usize::from(byte)];
            let (verdict, nets, _) = source.step(&[0, 0], &[byte]);
            assert_eq!(verdict, verdicts[usize::from(byte)]);
            assert_eq!(nets, [byte, read, read, byte]);
            let (answer, outputs, _) = source.run(&[0, 0], 1, &[byte]);
            assert_eq!(answer.verdict, verdicts[usize::from(byte)]);
            assert_eq!(outputs, [read, read, byte]);
        }
    }
}

// The digits of a listing are the bytes of the OUTs.
#[test]
fn the_listing_of_an_out_with_an_inverted_pin() {
    let image = counted(&[(INPUT, 0, 0, 0), (OUT, inverted(0), 1, 0)]);
    let expected = "0 1 clear\n1 0 clear\n2 3 flow 1\n3 2 flow 1\nend 4\n";
    assert_eq!(lines(&image, &[0, 1, 2, 3]), expected);
}

/// A register with this start that takes the row's byte inverted, and a
/// protected OUT of it.
fn register(start: u16) -> Sample {
    sample(&[
        (INPUT, 0, 0, 0),
        (REG, inverted(0), start, 0),
        (OUT, 1, 1, 0),
    ])
}

// Power-up does not read the pin, so the starts 0, 1 and 2 give the bytes 0, 1
// and 2.
#[test]
fn power_up_gives_a_register_its_start() {
    for (start, byte) in [(0, 0), (1, 1), (2, 2)] {
        assert_eq!(register(start).power_up(), with_count(&[byte]));
    }
}

// In the cycle a register has its own byte. At the clock it takes the row's byte
// inverted. A flow follows from the mark of its own byte.
#[test]
fn a_register_reads_its_inverted_pin_at_the_clock_alone() {
    let flow = Verdict::Flow(2);
    let verdicts = [Verdict::Clear, Verdict::Clear, flow, flow];
    for start in 0..=2 {
        for byte in 0..=3 {
            for row in 0..=3 {
                let stepped = register(start).step(&with_count(&[byte]), &[row]);
                let verdict = verdicts[usize::from(byte)];
                let after = with_count(&[READS[usize::from(row)]]);
                assert_eq!(stepped, (verdict, vec![row, byte, byte], after));
            }
        }
    }
}

// A register whose inverted pin names itself has the other value in each cycle
// and keeps its mark. A run of three cycles shows three bytes and leaves the
// fourth.
#[test]
fn a_register_of_itself_inverted() {
    let source = sample(&[(REG, inverted(0), 0, 0), (OUT, 0, 0, 0)]);
    let cases = [
        (0, [0, 1, 0], 1),
        (1, [1, 0, 1], 0),
        (2, [2, 3, 2], 3),
        (3, [3, 2, 3], 2),
    ];
    for (byte, outputs, after) in cases {
        let ran = source.run(&with_count(&[byte]), 3, &[]);
        assert_eq!((ran.1, ran.2), (outputs.to_vec(), with_count(&[after])));
    }
}

// Two registers take each other's byte inverted, all together: from 0, 3 they
// become 2, 1, since 3 inverted is 2 and 0 inverted is 1, and from 2, 1 they
// become 0, 3. The pin of net 0 points forward.
#[test]
fn registers_change_places_inverted() {
    let source = sample(&[(REG, inverted(1), 0, 0), (REG, inverted(0), 0, 0)]);
    assert_eq!(source.run(&[0, 3, 1, 0], 1, &[]).2, [2, 1, 1, 0]);
    assert_eq!(source.run(&[0, 3, 1, 0], 2, &[]).2, [0, 3, 1, 0]);
    assert_eq!(source.run(&[1, 1, 0, 0], 1, &[]).2, [0, 0, 0, 0]);
}

// A CONST is trusted, and so is what an inverted pin reads of it: 0 becomes 1
// and 1 becomes 0.
#[test]
fn an_inverted_pin_on_a_const() {
    for (value, byte) in [(0, 1), (1, 0)] {
        let source = sample(&[(CONST, value, 0, 0), (OUT, inverted(0), 1, 0)]);
        let (verdict, nets, _) = source.step(&[0, 0], &[]);
        assert_eq!(verdict, Verdict::Clear);
        assert_eq!(nets, [value as u8, byte]);
    }
}

// The counter of document 01 with its two NOTs as inverted pins: 0 INPUT; 1
// REG(2, start 0); 2 AND(1 inverted, 0 inverted); 3 OUT 1, protected. The
// register takes the same bytes as in the counter, so C12's output bytes 0, 3,
// 2, 0 come again, and the flows are at net 3.
#[test]
fn the_counter_with_inverted_pins() {
    let source = sample(&[
        (INPUT, 0, 0, 0),
        (REG, 2, 0, 0),
        (AND, inverted(1), inverted(0), 0),
        (OUT, 1, 1, 0),
    ]);
    let (answer, outputs, state) = source.run(&source.power_up(), 4, &COUNTER_ROWS);
    assert_eq!((answer.cycle, answer.verdict), (1, Verdict::Flow(3)));
    assert_eq!(outputs, [0, 3, 2, 0]);
    assert_eq!(state, [1, 0, 0]);
    let expected = "0 0 clear\n1 3 flow 3\n2 2 flow 3\n3 0 clear\nend 4\n";
    assert_eq!(lines(&source.image, &COUNTER_ROWS), expected);
}

// Net 8,191 is a protected OUT whose inverted pin names net 8,190, an OUT of the
// row's byte: 2 becomes 3.
#[test]
fn an_inverted_pin_on_the_highest_net() {
    let mut nets = vec![(INPUT, 0, 0, 0)];
    nets.extend(vec![(OUT, 0, 0, 0); 8190]);
    nets.push((OUT, inverted(8190), 1, 0));
    let (verdict, bytes, _) = sample(&nets).step(&[0, 0], &[2]);
    assert_eq!(verdict, Verdict::Flow(8191));
    assert_eq!(bytes[8190..], [2, 3]);
}
