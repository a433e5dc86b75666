//! Images made from nets and read back. The bytes are worked out by hand from
//! the specification's layout.

use tracker::kinds::{AND, CONST, INPUT, NOT, OUT, REG};
use tracker::{check, encode, encode_with, image_length, kind_place, operand_place, sizes};
use tracker::{Image, Net, Reason, Refusal, Sizes};

/// 0 INPUT; 1 REG(4, start 0); 2 NOT 1; 3 NOT 0; 4 AND(2, 3); 5 OUT 1,
/// protected.
const COUNTER: [Net; 6] = [
    Net::new(INPUT, 0, 0, 0),
    Net::new(REG, 4, 0, 0),
    Net::new(NOT, 1, 0, 0),
    Net::new(NOT, 0, 0, 0),
    Net::new(AND, 2, 3, 0),
    Net::new(OUT, 1, 1, 0),
];

#[rustfmt::skip]
const COUNTER_BYTES: [u8; 50] = [
    6, 0, 1, 0, 1, 0, 1, 0,
    1, 2, 3, 3, 4, 8,
    0, 0, 0, 0, 0, 0,
    4, 0, 0, 0, 0, 0,
    1, 0, 0, 0, 0, 0,
    0, 0, 0, 0, 0, 0,
    2, 0, 3, 0, 0, 0,
    1, 0, 1, 0, 0, 0,
];

/// Two nets that are no nets of a netlist: each byte of their operands is
/// another one. 258 is 1 × 256 + 2, 772 is 3 × 256 + 4, and so on.
const ANY: [Net; 2] = [
    Net::new(255, 258, 772, 1_286),
    Net::new(9, 1_800, 2_314, 2_828),
];

/// Sizes whose eight bytes differ.
const ANY_SIZES: Sizes = Sizes {
    nets: 3_342,
    inputs: 3_856,
    registers: 4_370,
    outputs: 4_884,
};

#[rustfmt::skip]
const ANY_BYTES: [u8; 22] = [
    14, 13, 16, 15, 18, 17, 20, 19,
    255, 9,
    2, 1, 4, 3, 6, 5,
    8, 7, 10, 9, 12, 11,
];

#[test]
fn the_counter_has_its_bytes() {
    assert_eq!(encode(&COUNTER), COUNTER_BYTES);
    assert_eq!(check(&COUNTER_BYTES), Ok(()));
}

#[test]
fn the_counter_is_read_back() {
    let image = Image::of(&COUNTER_BYTES).unwrap();
    let sizes = Sizes {
        nets: 6,
        inputs: 1,
        registers: 1,
        outputs: 1,
    };
    assert_eq!(image.sizes(), sizes);
    assert_eq!(image.kinds(), [1, 2, 3, 3, 4, 8]);
    assert_eq!([0, 1, 2].map(|index| image.operand(4, index)), [2, 3, 0]);
    assert_eq!(image.net(5), COUNTER[5]);
    assert!(image.nets().eq(COUNTER));
    assert!(image.nets().rev().eq(COUNTER.iter().rev().copied()));
}

// One CONST, two INPUTs, three REGs, and so on, to nine OUTs: 45 nets.
#[test]
fn sizes_count_inputs_registers_and_outputs() {
    let nets: Vec<Net> = (CONST..=OUT)
        .flat_map(|kind| vec![Net::new(kind, 0, 0, 0); usize::from(kind) + 1])
        .collect();
    assert_eq!(encode(&nets)[..8], [45, 0, 2, 0, 3, 0, 9, 0]);
}

#[test]
fn any_numbers_are_written_low_byte_first() {
    assert_eq!(encode_with(ANY_SIZES, &ANY), ANY_BYTES);
    assert_eq!(sizes(&ANY_BYTES), Some(ANY_SIZES));
}

#[test]
fn any_nets_are_read_back() {
    let bytes = encode(&ANY);
    assert_eq!(bytes[..8], [2, 0, 0, 0, 0, 0, 0, 0]);
    assert_eq!(bytes[8..], ANY_BYTES[8..]);
    assert!(Image::of(&bytes).unwrap().nets().eq(ANY));
}

// 65,535 CONSTs: N is the largest that two bytes hold, far above 8,192.
#[test]
fn the_largest_number_of_nets_is_written() {
    let bytes = encode(&vec![Net::new(CONST, 1, 0, 0); 65_535]);
    assert_eq!(bytes[..8], [255, 255, 0, 0, 0, 0, 0, 0]);
    assert_eq!(bytes.len(), image_length(65_535));
    assert_eq!(Image::of(&bytes).unwrap().nets().len(), 65_535);
}

#[test]
fn an_image_has_its_exact_length() {
    let mut longer = COUNTER_BYTES.to_vec();
    longer.push(0);
    assert_eq!(Image::of(&longer), None);
    for length in 0..50 {
        assert_eq!(Image::of(&COUNTER_BYTES[..length]), None, "{length}");
    }
    // No nets and no further bytes.
    let empty = Image::of(&[0; 8]).unwrap();
    assert!(empty.kinds().is_empty());
    assert_eq!(empty.nets().len(), 0);
}

#[test]
fn the_wrong_number_of_nets_is_written_as_it_is() {
    let sizes = Sizes {
        nets: 5,
        ..Sizes::of(&COUNTER)
    };
    let bytes = encode_with(sizes, &COUNTER);
    assert_eq!(bytes[0], 5);
    assert_eq!(bytes[1..], COUNTER_BYTES[1..]);
    let (reason, place) = (Reason::ImageLength, 0);
    assert_eq!(check(&bytes), Err(Refusal { reason, place }));
}

#[test]
fn places_are_those_of_kinds_and_operands() {
    let bytes = encode(&ANY);
    for (number, net) in ANY.iter().enumerate() {
        assert_eq!(bytes[kind_place(number)], net.kind);
        for (index, operand) in net.operands.iter().enumerate() {
            let place = operand_place(2, number, index);
            assert_eq!(bytes[place..place + 2], operand.to_le_bytes());
        }
    }
    assert_eq!(kind_place(2), operand_place(2, 0, 0));
    assert_eq!(operand_place(2, 1, 2) + 2, image_length(2));
}

#[test]
#[should_panic(expected = "a size of an image is at most 65,535")]
fn a_size_of_65536_has_no_bytes() {
    let sizes = Sizes {
        outputs: 65_536,
        ..ANY_SIZES
    };
    let _ = sizes.to_bytes();
}

#[test]
#[should_panic(expected = "out of bounds")]
fn a_fourth_operand_is_not_read() {
    let _ = Image::of(&COUNTER_BYTES).unwrap().operand(0, 3);
}

#[test]
#[should_panic(expected = "out of")]
fn a_net_behind_the_last_is_not_read() {
    let _ = Image::of(&COUNTER_BYTES).unwrap().net(6);
}
