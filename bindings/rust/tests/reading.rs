//! What an image says of its inputs, registers and outputs, and of pins.

use tracker::kinds::{self, AND, CONST, INPUT, INVERTED, MUX, OUT, REG};
use tracker::{check, encode, operand_place, protect, Image, Net, Pin};

/// A netlist whose INPUTs, REGs and OUTs stand between each other.
const NETS: [Net; 9] = [
    Net::new(REG, INVERTED + 8, 1, 0),
    Net::new(INPUT, 0, 0, 0),
    Net::new(OUT, INVERTED + 1, 1, 0),
    Net::new(REG, 5, 2, 0),
    Net::new(INPUT, 0, 0, 0),
    Net::new(MUX, 1, INVERTED + 2, INVERTED),
    Net::new(OUT, 5, 0, 0),
    Net::new(REG, 7, 0, 0),
    Net::new(INPUT, 0, 0, 0),
];

#[test]
fn the_nets_of_a_kind_come_in_net_order() {
    let bytes = encode(&NETS);
    assert_eq!(check(&bytes), Ok(()));
    let image = Image::of(&bytes).unwrap();
    assert!(image.inputs().eq([1, 4, 8]));
    assert!(image.registers().eq([0, 3, 7]));
    assert!(image.outputs().eq([2, 6]));
    assert!(image.registers().rev().eq([7, 3, 0]));
}

#[test]
fn there_may_be_none_of_a_kind() {
    let bytes = encode(&[Net::new(CONST, 0, 0, 0)]);
    let image = Image::of(&bytes).unwrap();
    let numbers = image.inputs().chain(image.registers());
    assert_eq!(numbers.chain(image.outputs()).count(), 0);
}

// 32,767 is the largest net that a pin has bits for.
#[test]
fn operands_are_read_as_pins() {
    let bytes = encode(&NETS);
    let image = Image::of(&bytes).unwrap();
    assert_eq!(image.pin(0, 0), !Pin::of(8));
    let pins = [Pin::of(1), !Pin::of(2), !Pin::of(0)];
    assert_eq!([0, 1, 2].map(|operand| image.pin(5, operand)), pins);
    let bytes = encode(&[Net::new(AND, 32_767, 65_535, 0)]);
    let image = Image::of(&bytes).unwrap();
    assert_eq!(image.pin(0, 0), Pin::of(32_767));
    assert_eq!(image.pin(0, 1), !Pin::of(32_767));
}

// 256 is no start, and 257 no policy: their low bytes alone would be 0 and 1.
#[test]
fn starts_and_policies_are_read() {
    let bytes = encode(&NETS);
    let image = Image::of(&bytes).unwrap();
    let starts: Vec<Option<bool>> = image.registers().map(|net| image.start(net)).collect();
    assert_eq!(starts, [Some(true), None, Some(false)]);
    assert!(image.is_protected(2) && !image.is_protected(6));

    let bytes = encode(&[Net::new(REG, 0, 256, 0), Net::new(OUT, 0, 257, 0)]);
    let image = Image::of(&bytes).unwrap();
    assert_eq!((image.start(0), image.is_protected(1)), (None, false));
}

#[test]
#[should_panic(expected = "net 1 is no REG")]
fn an_input_has_no_start() {
    let _ = Image::of(&encode(&NETS)).unwrap().start(1);
}

#[test]
#[should_panic(expected = "net 7 is no OUT")]
fn a_register_has_no_policy() {
    let _ = Image::of(&encode(&NETS)).unwrap().is_protected(7);
}

#[test]
fn a_policy_changes_and_nothing_else() {
    for (output, protected) in [(2, false), (2, true), (6, false), (6, true)] {
        let mut nets = NETS;
        nets[output].operands[1] = u16::from(protected);
        let mut image = encode(&NETS);
        protect(&mut image, output, protected);
        assert_eq!(image, encode(&nets));
    }
}

// Both bytes of a policy are written, also over one that is refused.
#[test]
fn a_wrong_policy_is_written_over() {
    for (protected, policy) in [(false, 0), (true, 1)] {
        let mut image = encode(&NETS);
        let place = operand_place(9, 6, 1);
        image[place..place + 2].copy_from_slice(&[1, 1]);
        protect(&mut image, 6, protected);
        assert_eq!(image[place..place + 2], [policy, 0]);
        assert_eq!(check(&image), Ok(()));
    }
}

/// Protects a net of the image, and gives the image back where that panics.
fn left_by_a_panic(image: &[u8], net: usize) -> Option<Vec<u8>> {
    let mut left = image.to_vec();
    let answer = std::panic::catch_unwind(std::panic::AssertUnwindSafe(|| {
        protect(&mut left, net, true);
    }));
    answer.err().map(|_| left)
}

#[test]
fn what_is_no_output_is_not_protected() {
    let image = encode(&NETS);
    for net in [0, 1, 3, 4, 5, 7, 8, 9, usize::MAX] {
        assert_eq!(left_by_a_panic(&image, net).as_deref(), Some(&image[..]));
    }
    let short = &image[..70];
    assert_eq!(left_by_a_panic(short, 2).as_deref(), Some(short));
    assert_eq!(left_by_a_panic(&image, 2), None);
}

#[test]
fn the_kinds_0_to_8_have_names() {
    let names = "CONST INPUT REG NOT AND OR XOR MUX OUT".split(' ');
    for (kind, name) in (0..=8).zip(names) {
        assert_eq!(kinds::name(kind), Some(name));
    }
    assert_eq!(kinds::name(INPUT), Some("INPUT"));
    assert!((9..=255).all(|kind| kinds::name(kind).is_none()));
}
