//! The figures of the doubled netlist, held against what the static library then
//! writes.

use tracker::kinds::CONST;
use tracker::{double, doubled_size, encode, image_length};
use tracker::{DoubledSize, Image, Net, Reason, Refusal};

/// The nets of a group, by the kind of its source: CONST, INPUT, REG, NOT, AND,
/// OR, XOR, MUX, OUT. Each row has the kinds of the group's nets, by the
/// specification.
const GROUPS: [&[u8]; 9] = [
    &[0, 0],
    &[1, 1],
    &[2, 2],
    &[3, 5],
    &[4, 4, 4, 4, 5, 5],
    &[5, 3, 3, 4, 4, 4, 5, 5],
    &[6, 5],
    &[7, 6, 5, 5, 4, 7, 5],
    &[8, 8],
];

/// A CONST 0, and a net of the kind whose operands are all 0.
fn two_nets(kind: u8) -> Vec<u8> {
    encode(&[CONST, kind].map(|kind| Net::new(kind, 0, 0, 0)))
}

/// The doubled image. Doubling accepts the exact length alone.
fn doubled(image: &[u8]) -> Vec<u8> {
    let mut buffer = vec![0; doubled_size(image).unwrap().bytes];
    assert_eq!(double(image, &mut buffer), Ok(()));
    buffer
}

/// How many of the kinds are this one.
fn count(kinds: &[u8], kind: u8) -> usize {
    kinds.iter().filter(|other| **other == kind).count()
}

// A CONST becomes two CONSTs.
#[test]
fn each_kind_has_its_group() {
    for (kind, group) in (0..=8).zip(GROUPS) {
        let image = two_nets(kind);
        let size = doubled_size(&image).unwrap();
        let kinds = [GROUPS[0], group].concat();
        assert_eq!(size.nets, kinds.len(), "kind {kind}");
        assert_eq!(size.bytes, image_length(kinds.len()), "kind {kind}");
        for of in 0..=255 {
            assert_eq!(size.of_kind(of), count(&kinds, of), "kind {kind}, {of}");
        }
        let written = doubled(&image);
        assert_eq!(Image::of(&written).unwrap().kinds(), kinds, "kind {kind}");
    }
}

/// The numbers of the nine kinds, by the names of the fields.
fn by_name(size: DoubledSize) -> [usize; 9] {
    [
        size.consts,
        size.inputs,
        size.registers,
        size.nots,
        size.ands,
        size.ors,
        size.xors,
        size.muxes,
        size.outputs,
    ]
}

/// The figures are those of the image that doubling writes, which is given.
fn written(image: &[u8]) -> Vec<u8> {
    let size = doubled_size(image).unwrap();
    let bytes = doubled(image);
    let read = Image::of(&bytes).unwrap();
    assert_eq!(size.nets, read.sizes().nets);
    assert_eq!(size.bytes, bytes.len());
    for (kind, number) in (0..=8).zip(by_name(size)) {
        assert_eq!(number, count(read.kinds(), kind), "kind {kind}");
        assert_eq!(number, size.of_kind(kind), "kind {kind}");
    }
    bytes
}

// One net of each kind, doubled four times. Six kinds become two nets each, AND
// six, OR eight and MUX seven: 33 nets, of which 8 are ANDs, 10 ORs, 2 MUXes and
// 13 others. 2 × 13 + 6 × 8 + 8 × 10 + 7 × 2 is 168. Of these 64 are ANDs, 57
// ORs, 4 MUXes and 43 others, and 2 × 43 + 6 × 64 + 8 × 57 + 7 × 4 is 954. Of
// these 431 are ANDs, 338 ORs, 8 MUXes and 177 others, so that doubling them
// makes 2 × 177 + 6 × 431 + 8 × 338 + 7 × 8 = 5,700 nets.
#[test]
fn the_figures_are_those_of_what_is_written() {
    let nets: Vec<Net> = (0..=8).map(|kind| Net::new(kind, 0, 0, 0)).collect();
    let mut image = encode(&nets);
    for nets in [33, 168, 954, 5_700] {
        image = written(&image);
        assert_eq!(image.len(), image_length(nets));
    }
    let (reason, place) = (Reason::DoubledTooLarge, 0);
    assert_eq!(doubled_size(&image), Err(Refusal { reason, place }));
}
