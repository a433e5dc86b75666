//! Registers by their starts: how they wake, in a netlist and in the doubled one.

use tracker::kinds::{AND, CONST, OUT, REG};
use tracker::{double, doubled_size, encode, power_up, run, Image, Net};

/// The state at power-up, in place of any bytes.
fn powered_up<const LENGTH: usize>(image: &[u8]) -> [u8; LENGTH] {
    let mut state = [255; LENGTH];
    assert_eq!(power_up(image, &mut state), Ok(()));
    state
}

// A start of 0 or 1 is a trusted value. Without one, the byte is 2: value 0 and
// mark 1. So one register of the three is marked.
#[test]
fn each_register_wakes_by_its_start() {
    let image = encode(&[0, 1, 2].map(|start| Net::new(REG, 0, start, 0)));
    assert_eq!(powered_up(&image), [0, 1, 2, 1, 0]);
}

// A register that takes its own byte becomes two such registers, of which the
// first has its start, and the second the start of its mark. The first is marked
// where it has no start, and the second never is.
#[test]
fn the_doubled_registers_start_with_value_and_mark() {
    for (start, mark) in [(0, 0), (1, 0), (2, 1)] {
        let image = encode(&[Net::new(REG, 0, start, 0)]);
        let mut doubled = vec![0; doubled_size(&image).unwrap().bytes];
        assert_eq!(double(&image, &mut doubled), Ok(()));
        let expected = [Net::new(REG, 0, start, 0), Net::new(REG, 1, mark, 0)];
        assert!(Image::of(&doubled).unwrap().nets().eq(expected));
        let (start, mark) = (start as u8, mark as u8);
        assert_eq!(powered_up(&doubled), [start, mark, start / 2, 0]);
    }
}

/// Whether a cycle is clear in which a register without a start holds this byte, 2
/// or 3, and a protected OUT shows its AND with a CONST.
fn is_clear(constant: u16, byte: u8) -> bool {
    let nets = [
        Net::new(REG, 0, 2, 0),
        Net::new(CONST, constant, 0, 0),
        Net::new(AND, 0, 1, 0),
        Net::new(OUT, 2, 1, 0),
    ];
    let answer = run(&encode(&nets), 1, &mut [byte, 1, 0], &[], &mut [0]);
    answer.unwrap().verdict.is_clear()
}

// AND with 0 is 0 whatever the register holds, and AND with 1 is what it holds.
// The verdict is the same for both values.
#[test]
fn a_verdict_holds_whatever_the_register_held() {
    for byte in [2, 3] {
        assert!(is_clear(0, byte));
        assert!(!is_clear(1, byte));
    }
}
