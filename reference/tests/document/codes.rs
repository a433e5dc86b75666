//! Codes for the tests of the static run: request L4 of document 02. Code 4 is an
//! unknown trusted bit and 6 an unknown untrusted one.

use crate::random::Numbers;

/// All codes.
pub const CODES: [u8; 6] = [0, 1, 2, 3, 4, 6];

/// All 216 lists of three codes.
pub fn all_code_triples() -> Vec<[u8; 3]> {
    let mut all = Vec::new();
    for a in CODES {
        for b in CODES {
            for c in CODES {
                all.push([a, b, c]);
            }
        }
    }
    all
}

/// The values that a code leaves open: 0 and 1 for an unknown one.
fn values_of(code: u8) -> Vec<u8> {
    match code {
        4 | 6 => vec![0, 1],
        _ => vec![code % 2],
    }
}

/// The mark of a code: 0 for 0, 1 and 4, and 1 for 2, 3 and 6.
pub fn mark_of(code: u8) -> u8 {
    match code {
        0 | 1 | 4 => 0,
        2 | 3 | 6 => 1,
        _ => panic!("no code: {code}"),
    }
}

/// All lists of bytes which fill these codes: 4 becomes 0 or 1, 6 becomes 2 or 3,
/// and a known byte stays.
pub fn all_fillings(codes: &[u8]) -> Vec<Vec<u8>> {
    let mut all = vec![Vec::new()];
    for code in codes {
        let mut longer = Vec::new();
        for filling in all {
            for value in values_of(*code) {
                let mut filling = filling.clone();
                filling.push(value + 2 * mark_of(*code));
                longer.push(filling);
            }
        }
        all = longer;
    }
    all
}

/// One list of bytes which fills these codes.
pub fn fill(numbers: &mut Numbers, codes: &[u8]) -> Vec<u8> {
    let mut bytes = Vec::new();
    for code in codes {
        let values = values_of(*code);
        bytes.push(values[numbers.below(values.len())] + 2 * mark_of(*code));
    }
    bytes
}

/// A code covers another, or a byte: each value that the other leaves open is
/// open in the first, and the other is marked only if the first is.
pub fn covers(first: u8, other: u8) -> bool {
    let open = values_of(first);
    let values = values_of(other);
    values.iter().all(|value| open.contains(value)) && mark_of(other) <= mark_of(first)
}

/// The codes of the first list cover those of the other place by place.
pub fn all_cover(first: &[u8], others: &[u8]) -> bool {
    let mut pairs = first.iter().zip(others);
    first.len() == others.len() && pairs.all(|(code, other)| covers(*code, *other))
}

/// Codes that cover these. About half of them are the same.
pub fn widen(numbers: &mut Numbers, codes: &[u8]) -> Vec<u8> {
    let mut wider = Vec::new();
    for code in codes {
        let above: Vec<u8> = CODES.into_iter().filter(|c| covers(*c, *code)).collect();
        wider.push(match numbers.below(2) {
            0 => *code,
            _ => above[numbers.below(above.len())],
        });
    }
    wider
}

// Of 4, 2 and 6 the fillings are 0 or 1, then 2, then 2 or 3.
#[test]
fn the_fillings_of_three_codes() {
    let expected = [[0, 2, 2], [0, 2, 3], [1, 2, 2], [1, 2, 3]];
    assert_eq!(all_fillings(&[4, 2, 6]), expected);
    let mut numbers = Numbers(20);
    for _ in 0..100 {
        let bytes = fill(&mut numbers, &[4, 2, 6]);
        assert!(expected.iter().any(|filling| *filling == bytes[..]));
    }
}

// Row by row the codes that a code covers. 2 and 3 cover the unmarked byte of
// their value, 4 the unmarked ones, and 6 all. 0 and 1 cover themselves alone.
#[test]
fn what_a_code_covers() {
    let covered = |code: u8| -> Vec<u8> {
        let covers = |other: &u8| covers(code, *other);
        CODES.into_iter().filter(covers).collect()
    };
    assert_eq!(covered(0), [0]);
    assert_eq!(covered(1), [1]);
    assert_eq!(covered(2), [0, 2]);
    assert_eq!(covered(3), [1, 3]);
    assert_eq!(covered(4), [0, 1, 4]);
    assert_eq!(covered(6), [0, 1, 2, 3, 4, 6]);
}
