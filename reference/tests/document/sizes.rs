//! The figures of the doubled netlist: request L1 of document 02, with the group
//! of a MUX of request L5.

use crate::images::*;
use crate::lent::*;
use crate::random::{random_nets, Numbers};
use crate::unchanged::bad_images;
use reference::{double, doubled_size, DoubledSize};
use std::collections::BTreeSet;

/// The figures of an image, read from its bytes: N from the first two, its
/// length, and its kind bytes, which start at byte 8.
fn figures_of(image: &[u8]) -> DoubledSize {
    let nets = usize::from(u16::from_le_bytes([image[0], image[1]]));
    let mut kinds = [0; 9];
    for kind in &image[8..8 + nets] {
        kinds[usize::from(*kind)] += 1;
    }
    DoubledSize {
        nets,
        bytes: image.len(),
        kinds,
    }
}

/// The figures are those of the image that doubling then writes, and the bytes
/// are the only length of a buffer that doubling takes.
fn figures_are_those_written(image: &[u8]) {
    let size = doubled_size(image).unwrap();
    let mut buffer = vec![77; size.bytes];
    assert_eq!(double(image, &mut buffer), Ok(()));
    assert_eq!(size, figures_of(&buffer));
    double_refuses(image, size.bytes - 1, 16, 0);
    double_refuses(image, size.bytes + 1, 16, 0);
}

/// The call gives these figures, and doubling then writes them.
fn has_figures(image: &[u8], nets: usize, bytes: usize, kinds: [usize; 9]) {
    let expected = DoubledSize { nets, bytes, kinds };
    assert_eq!(doubled_size(image), Ok(expected));
    figures_are_those_written(image);
}

// Document 01 gives 16 nets and 120 bytes. The groups are INPUT, INPUT; REG,
// REG; NOT, OR; NOT, OR; AND, AND, AND, AND, OR, OR; OUT, OUT.
#[test]
fn the_figures_of_the_counter() {
    has_figures(&COUNTER, 16, 120, [0, 2, 2, 2, 4, 4, 0, 0, 2]);
}

// Of the doubled counter's kinds above, those of the groups are: INPUT, REG and
// OUT 4 each; NOT 2 + 4 * 2 = 10; AND 4 * 4 + 4 * 3 = 28; OR 2 + 4 * 2 + 4 * 3
// = 22. They are 72 nets, and 8 + 7 * 72 is 512.
#[test]
fn the_figures_of_the_doubled_counter() {
    let mut once = [77; 120];
    double(&COUNTER, &mut once).unwrap();
    has_figures(&once, 72, 512, [0, 4, 4, 10, 28, 22, 0, 0, 4]);
}

// One net of each of the nine kinds. NOT 1 + 2 = 3 from NOT and OR; AND 4 + 3 +
// 1 = 8 from AND, OR and MUX; OR 1 + 2 + 3 + 1 + 3 = 10 from NOT, AND, OR, XOR
// and MUX; XOR 1 + 1 = 2 from XOR and MUX. They are 33 nets, and 8 + 7 * 33 is
// 239.
#[test]
fn the_figures_of_the_nine_kinds() {
    has_figures(&nine_kinds(), 33, 239, [2, 2, 2, 3, 8, 10, 2, 2, 2]);
}

/// The kinds of the group of each kind, counted by hand in document 01. The XOR of
/// a MUX is that of request L5.
const KINDS_OF_GROUPS: [[usize; 9]; 9] = [
    // CONST, CONST.
    [2, 0, 0, 0, 0, 0, 0, 0, 0],
    // INPUT, INPUT.
    [0, 2, 0, 0, 0, 0, 0, 0, 0],
    // REG, REG.
    [0, 0, 2, 0, 0, 0, 0, 0, 0],
    // NOT, OR.
    [0, 0, 0, 1, 0, 1, 0, 0, 0],
    // AND, AND, AND, AND, OR, OR.
    [0, 0, 0, 0, 4, 2, 0, 0, 0],
    // OR, NOT, NOT, AND, AND, AND, OR, OR.
    [0, 0, 0, 2, 3, 3, 0, 0, 0],
    // XOR, OR.
    [0, 0, 0, 0, 0, 1, 1, 0, 0],
    // MUX, XOR, OR, OR, AND, MUX, OR.
    [0, 0, 0, 0, 1, 3, 1, 2, 0],
    // OUT, OUT.
    [0, 0, 0, 0, 0, 0, 0, 0, 2],
];

// A CONST has 2 nets, both CONSTs, so with it and one net of the kind the nets
// and the CONSTs are 2 more than those of the kind's group.
#[test]
fn the_figures_of_each_kind() {
    for (kind, length) in [2, 2, 2, 2, 6, 8, 2, 7, 2].into_iter().enumerate() {
        let image = counted(&[(CONST, 0, 0, 0), (kind as u8, 0, 0, 0)]);
        let mut kinds = KINDS_OF_GROUPS[kind];
        kinds[0] += 2;
        has_figures(&image, 2 + length, 8 + 7 * (2 + length), kinds);
    }
}

// One net: only a CONST, an INPUT or a REG may stand alone. 8 + 7 * 2 is 22.
#[test]
fn the_figures_of_one_net() {
    for kind in [CONST, INPUT, REG] {
        let kinds = KINDS_OF_GROUPS[usize::from(kind)];
        has_figures(&counted(&[(kind, 0, 0, 0)]), 2, 22, kinds);
    }
}

// A CONST, 1,023 ORs and one AND: NOT 2 * 1,023 = 2,046; AND 3 * 1,023 + 4 =
// 3,073; OR 3 * 1,023 + 2 = 3,071. 8 + 7 * 8,192 is 57,352.
#[test]
fn the_figures_of_8192_nets() {
    let kinds = [2, 0, 0, 2046, 3073, 3071, 0, 0, 0];
    has_figures(&doubles_to_8192(), 8192, 57352, kinds);
}

#[test]
fn more_than_8192_nets_are_refused() {
    assert_eq!(doubled_size(&doubles_to_8193()), refused(15, 0));
    assert_eq!(doubled_size(&counted(&const_and_ors(1024))), refused(15, 0));
    assert_eq!(doubled_size(&counted(&const_and_ors(8191))), refused(15, 0));
}

// 4,096 nets of two doubled nets each are accepted, and 4,097 are refused.
#[test]
fn the_limit_is_on_the_doubled_nets() {
    let consts = |n: usize| counted(&vec![(CONST, 1, 0, 0); n]);
    has_figures(&consts(4096), 8192, 57352, [8192, 0, 0, 0, 0, 0, 0, 0, 0]);
    assert_eq!(doubled_size(&consts(4097)), refused(15, 0));
}

// The small examples of the table in document 01, and changed forms of the
// counter whose faults stand at other nets than 0.
#[test]
fn each_of_1_to_8_is_met_with_its_place() {
    let mut long = counted(&[(CONST, 0, 0, 0)]);
    long.push(0);
    let above = counted(&vec![(CONST, 0, 0, 0); 8193]);
    assert_eq!(doubled_size(&[1, 0, 0, 0, 0, 0, 0]), refused(1, 0));
    assert_eq!(doubled_size(&above), refused(2, 0));
    assert_eq!(doubled_size(&long), refused(3, 0));
    assert_eq!(doubled_size(&counted(&[(9, 0, 0, 0)])), refused(4, 0));
    assert_eq!(doubled_size(&counted(&[(NOT, 0, 0, 0)])), refused(5, 0));
    assert_eq!(doubled_size(&counted(&[(REG, 0, 3, 0)])), refused(6, 0));
    assert_eq!(doubled_size(&counted(&[(INPUT, 1, 0, 0)])), refused(7, 0));
    let wrong = image(1, 0, 0, &[(CONST, 0, 0, 0)]);
    assert_eq!(doubled_size(&wrong), refused(8, 0));
    for (image, number, place) in bad_images() {
        assert_eq!(doubled_size(&image), refused(number, place));
    }
}

// A CONST and 1,024 ORs would draw 15. One net more, net 1,025, has a fault, or
// I is wrong.
#[test]
fn each_of_4_to_8_comes_before_15() {
    let faults = [
        (4, (9, 0, 0, 0)),
        (5, (NOT, 1025, 0, 0)),
        (6, (OUT, 0, 2, 0)),
        (7, (NOT, 0, 1, 0)),
    ];
    for (number, fault) in faults {
        let mut nets = const_and_ors(1024);
        nets.push(fault);
        assert_eq!(doubled_size(&counted(&nets)), refused(number, 1025));
    }
    let wrong = image(1, 0, 0, &const_and_ors(1024));
    assert_eq!(doubled_size(&wrong), refused(8, 0));
}

#[test]
fn the_figures_of_random_netlists() {
    let mut numbers = Numbers(4);
    for _ in 0..2000 {
        let n = 1 + numbers.below(60);
        let image = counted(&random_nets(&mut numbers, n));
        figures_are_those_written(&image);
    }
    for _ in 0..20 {
        let n = 1 + numbers.below(1024);
        let image = counted(&random_nets(&mut numbers, n));
        figures_are_those_written(&image);
    }
}

// One byte of a good image is set to any byte, and the last ones are cut off in
// one of eight images. If the call then turns back, doubling turns back with
// the same number and place; if it does not, doubling writes the figures.
#[test]
fn the_call_turns_back_as_doubling_does() {
    let mut numbers = Numbers(5);
    let mut met = BTreeSet::new();
    for _ in 0..4000 {
        let n = 1 + numbers.below(20);
        let mut image = counted(&random_nets(&mut numbers, n));
        let index = numbers.below(image.len());
        image[index] = numbers.below(256) as u8;
        if numbers.below(8) == 0 {
            image.truncate(numbers.below(20));
        }
        match doubled_size(&image) {
            Ok(_) => figures_are_those_written(&image),
            Err(refusal) => {
                double_refuses(&image, 120, refusal.number, refusal.place);
                met.insert(refusal.number);
            }
        }
    }
    assert_eq!(Vec::from_iter(met), [1, 2, 3, 4, 5, 6, 7, 8]);
}
