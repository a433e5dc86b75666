//! The small examples of the specification's table of refusals, each by a call
//! of the static library. No refused call changes a lent byte.

use tracker::{check, double, doubled_size, encode, encode_with, kinds, power_up, run, step};
use tracker::{Net, Reason, Refusal, Sizes};

const CONST: Net = Net::new(kinds::CONST, 0, 0, 0);
const INPUT: Net = Net::new(kinds::INPUT, 0, 0, 0);
const REG: Net = Net::new(kinds::REG, 0, 0, 0);
const AND: Net = Net::new(kinds::AND, 0, 0, 0);
const OR: Net = Net::new(kinds::OR, 0, 0, 0);

fn refused<T>(reason: Reason, place: usize) -> Result<T, Refusal> {
    Err(Refusal { reason, place })
}

/// The answer of a check that turns back. The doubled size turns back alike.
fn checked(image: &[u8]) -> Result<(), Refusal> {
    let answer = check(image);
    assert_eq!(doubled_size(image).map(|_| ()), answer);
    answer
}

#[test]
fn lengths_of_the_image() {
    assert_eq!(checked(&[]), refused(Reason::ImageTooShort, 0));
    assert_eq!(checked(&[0; 7]), refused(Reason::ImageTooShort, 0));
    assert_eq!(checked(&[0; 8]), refused(Reason::NetsOutOfRange, 0));
    // 8,193 is 32 × 256 + 1.
    let head = [1, 32, 0, 0, 0, 0, 0, 0];
    assert_eq!(checked(&head), refused(Reason::NetsOutOfRange, 0));
    let mut long = encode(&[CONST]);
    long.push(0);
    assert_eq!(long.len(), 16);
    assert_eq!(checked(&long), refused(Reason::ImageLength, 0));
}

#[test]
fn nets_of_the_image() {
    let bad = |kind, a, b| {
        let nets = [CONST, Net::new(kind, a, b, 0)];
        checked(&encode_with(Sizes::of(&[CONST, CONST]), &nets))
    };
    assert_eq!(bad(9, 0, 0), refused(Reason::Kind, 1));
    assert_eq!(bad(kinds::NOT, 1, 0), refused(Reason::Pin, 1));
    assert_eq!(bad(kinds::REG, 0, 3), refused(Reason::Value, 1));
    assert_eq!(bad(kinds::INPUT, 1, 0), refused(Reason::UnlistedOperand, 1));
    let sizes = Sizes::of(&[INPUT]);
    let answer = checked(&encode_with(sizes, &[CONST]));
    assert_eq!(answer, refused(Reason::Counts, 0));
}

#[test]
fn states() {
    let register = encode(&[REG]);
    assert_eq!(
        power_up(&register, &mut []),
        refused(Reason::StateLength, 0)
    );
    let mut state = [7, 7];
    let answer = power_up(&register, &mut state);
    assert_eq!(answer, refused(Reason::StateLength, 0));
    assert_eq!(state, [7, 7]);

    let (mut state, mut nets) = ([4, 0, 0], [7]);
    let answer = step(&register, &mut state, &[], &mut nets);
    assert_eq!(answer, refused(Reason::StateByte, 0));
    assert_eq!((state, nets), ([4, 0, 0], [7]));
}

#[test]
fn rows_and_buffers_of_a_step() {
    let inputs = encode(&[INPUT, INPUT]);
    let mut nets = [7; 2];
    let answer = step(&inputs, &mut [0, 0], &[0], &mut nets);
    assert_eq!(answer, refused(Reason::RowLength, 0));
    let answer = step(&inputs, &mut [0, 0], &[3, 255], &mut nets);
    assert_eq!(answer, refused(Reason::RowByte, 1));
    assert_eq!(nets, [7; 2]);

    let mut nets = [7; 3];
    let answer = step(&inputs, &mut [0, 0], &[0, 0], &mut nets);
    assert_eq!(answer, refused(Reason::BufferLength, 0));
    assert_eq!(nets, [7; 3]);
}

#[test]
fn cycles_rows_and_buffers_of_a_run() {
    let register = encode(&[REG]);
    let mut state = [2, 1, 0];
    for k in [4_097, usize::MAX] {
        let answer = run(&register, k, &mut state, &[], &mut []);
        assert_eq!(answer, refused(Reason::TooManyCycles, 0));
    }
    let answer = run(&register, 4_096, &mut state, &[0], &mut []);
    assert_eq!(answer, refused(Reason::RowLength, 0));
    let mut outputs = [7];
    let answer = run(&register, 4_096, &mut state, &[], &mut outputs);
    assert_eq!(answer, refused(Reason::BufferLength, 0));
    assert_eq!((state, outputs), ([2, 1, 0], [7]));

    let inputs = encode(&[INPUT, INPUT]);
    let answer = run(&inputs, 2, &mut [0, 0], &[0, 1, 2, 4], &mut []);
    assert_eq!(answer, refused(Reason::RowByte, 3));
}

// A CONST and 1,024 ORs double to 2 + 8 × 1,024 = 8,194 nets; a CONST, 1,023
// ORs and one AND to 2 + 8 × 1,023 + 6 = 8,192.
#[test]
fn sizes_of_the_doubled() {
    let mut nets = vec![OR; 1_025];
    nets[0] = CONST;
    let source = encode(&nets);
    let answer = double(&source, &mut [7]);
    assert_eq!(answer, refused(Reason::DoubledTooLarge, 0));
    assert_eq!(doubled_size(&source), refused(Reason::DoubledTooLarge, 0));

    nets[1_024] = AND;
    let source = encode(&nets);
    let size = doubled_size(&source).unwrap();
    assert_eq!((size.nets, size.bytes), (8_192, 57_352));
    let mut buffer = vec![7; size.bytes - 1];
    assert_eq!(
        double(&source, &mut buffer),
        refused(Reason::DoubledLength, 0)
    );
    assert!(buffer.iter().all(|&byte| byte == 7));

    buffer.push(7);
    assert_eq!(double(&source, &mut buffer), Ok(()));
    assert_eq!(check(&buffer), Ok(()));
}
