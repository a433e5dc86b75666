//! The doubled groups of nets with inverted pins: request L3 of document 02. A
//! pin that document 01 writes as va, vb or vc keeps the bit of the source's pin.
//! A pin written as ta, tb or tc has no bit, and the inner pins have none.
//!
//! In the groups by hand nets 0, 1 and 2 are INPUTs, so v, t are 0, 1 for net 0;
//! 2, 3 for net 1; and 4, 5 for net 2. The group of net 3 starts at net 6.

use crate::images::*;
use crate::pins::inverted;
use crate::samples::sample;

/// Three INPUTs and this entry as net 3.
pub fn fourth(entry: Entry) -> Vec<Entry> {
    let mut nets = vec![(INPUT, 0, 0, 0); 3];
    nets.push(entry);
    nets
}

/// The group of this entry as net 3 is the given one, behind the INPUTs' six
/// nets. The images are compared byte for byte.
fn has_group(entry: Entry, group: &[Entry]) {
    let mut expected = vec![(INPUT, 0, 0, 0); 6];
    expected.extend(group);
    let doubled = sample(&fourth(entry)).doubled();
    assert_eq!(doubled.image, counted(&expected), "{entry:?}");
}

// REG on va with start b; REG on ta with start 1 if b is 2, otherwise 0.
#[test]
fn the_group_of_a_reg() {
    for (start, mark_start) in [(0, 0), (1, 0), (2, 1)] {
        let group = [(REG, inverted(2), start, 0), (REG, 3, mark_start, 0)];
        has_group((REG, inverted(1), start, 0), &group);
    }
}

// The REG is net 0 and its pin names the OUT, net 2, which stands after it: v, t
// are 0, 1 for net 0; 2, 3 for net 1; and 4, 5 for net 2.
#[test]
fn the_group_of_a_reg_that_points_forward() {
    let source = sample(&[
        (REG, inverted(2), 0, 0),
        (INPUT, 0, 0, 0),
        (OUT, inverted(0), 1, 0),
    ]);
    let expected = counted(&[
        (REG, inverted(4), 0, 0),
        (REG, 5, 0, 0),
        (INPUT, 0, 0, 0),
        (INPUT, 0, 0, 0),
        (OUT, inverted(0), 0, 0),
        (OUT, 1, 0, 0),
    ]);
    assert_eq!(source.doubled().image, expected);
}

// NOT va; OR(ta, ta).
#[test]
fn the_group_of_a_not() {
    has_group(
        (NOT, inverted(1), 0, 0),
        &[(NOT, inverted(2), 0, 0), (OR, 3, 3, 0)],
    );
}

// OUT va, free; OUT ta, free.
#[test]
fn the_group_of_an_out() {
    let group = [(OUT, inverted(2), 0, 0), (OUT, 3, 0, 0)];
    has_group((OUT, inverted(1), 0, 0), &group);
    has_group((OUT, inverted(1), 1, 0), &group);
}

// XOR(va, vb); OR(ta, tb).
#[test]
fn the_groups_of_an_xor() {
    let (a, b) = (inverted(1), inverted(2));
    let (va, vb) = (inverted(2), inverted(4));
    has_group((XOR, a, 2, 0), &[(XOR, va, 4, 0), (OR, 3, 5, 0)]);
    has_group((XOR, 1, b, 0), &[(XOR, 2, vb, 0), (OR, 3, 5, 0)]);
    has_group((XOR, a, b, 0), &[(XOR, va, vb, 0), (OR, 3, 5, 0)]);
}

// AND(va, vb); p = AND(ta, vb); q = AND(tb, va); r = AND(ta, tb); s = OR(p, q);
// OR(s, r). The nets are 6, p = 7, q = 8, r = 9, s = 10 and 11.
#[test]
#[rustfmt::skip]
fn the_groups_of_an_and() {
    let (a, b) = (inverted(1), inverted(2));
    let (va, vb) = (inverted(2), inverted(4));
    has_group((AND, a, 2, 0), &[
        (AND, va, 4, 0), (AND, 3, 4, 0), (AND, 5, va, 0), (AND, 3, 5, 0),
        (OR, 7, 8, 0), (OR, 10, 9, 0),
    ]);
    has_group((AND, 1, b, 0), &[
        (AND, 2, vb, 0), (AND, 3, vb, 0), (AND, 5, 2, 0), (AND, 3, 5, 0),
        (OR, 7, 8, 0), (OR, 10, 9, 0),
    ]);
    has_group((AND, a, b, 0), &[
        (AND, va, vb, 0), (AND, 3, vb, 0), (AND, 5, va, 0), (AND, 3, 5, 0),
        (OR, 7, 8, 0), (OR, 10, 9, 0),
    ]);
}

// OR(va, vb); m = NOT va; n = NOT vb; p = AND(ta, n); q = AND(tb, m); r =
// AND(ta, tb); s = OR(p, q); OR(s, r). The nets are 6, m = 7, n = 8, p = 9, q =
// 10, r = 11, s = 12 and 13.
#[test]
#[rustfmt::skip]
fn the_groups_of_an_or() {
    let (a, b) = (inverted(1), inverted(2));
    let (va, vb) = (inverted(2), inverted(4));
    has_group((OR, a, 2, 0), &[
        (OR, va, 4, 0), (NOT, va, 0, 0), (NOT, 4, 0, 0), (AND, 3, 8, 0),
        (AND, 5, 7, 0), (AND, 3, 5, 0), (OR, 9, 10, 0), (OR, 12, 11, 0),
    ]);
    has_group((OR, 1, b, 0), &[
        (OR, 2, vb, 0), (NOT, 2, 0, 0), (NOT, vb, 0, 0), (AND, 3, 8, 0),
        (AND, 5, 7, 0), (AND, 3, 5, 0), (OR, 9, 10, 0), (OR, 12, 11, 0),
    ]);
    has_group((OR, a, b, 0), &[
        (OR, va, vb, 0), (NOT, va, 0, 0), (NOT, vb, 0, 0), (AND, 3, 8, 0),
        (AND, 5, 7, 0), (AND, 3, 5, 0), (OR, 9, 10, 0), (OR, 12, 11, 0),
    ]);
}

// MUX(va, vb, vc); p = XOR(va, vb); q = OR(ta, tb); r = OR(p, q); w = AND(tc, r);
// z = MUX(ta, tb, vc); OR(w, z). The nets are 6, p = 7, q = 8, r = 9, w = 10, z
// = 11 and 12. The XOR is that of request L5.
#[test]
#[rustfmt::skip]
fn the_groups_of_a_mux() {
    let (a, b, c) = (inverted(0), inverted(1), inverted(2));
    let (va, vb, vc) = (inverted(0), inverted(2), inverted(4));
    has_group((MUX, a, 1, 2), &[
        (MUX, va, 2, 4), (XOR, va, 2, 0), (OR, 1, 3, 0), (OR, 7, 8, 0),
        (AND, 5, 9, 0), (MUX, 1, 3, 4), (OR, 10, 11, 0),
    ]);
    has_group((MUX, 0, b, 2), &[
        (MUX, 0, vb, 4), (XOR, 0, vb, 0), (OR, 1, 3, 0), (OR, 7, 8, 0),
        (AND, 5, 9, 0), (MUX, 1, 3, 4), (OR, 10, 11, 0),
    ]);
    has_group((MUX, 0, 1, c), &[
        (MUX, 0, 2, vc), (XOR, 0, 2, 0), (OR, 1, 3, 0), (OR, 7, 8, 0),
        (AND, 5, 9, 0), (MUX, 1, 3, vc), (OR, 10, 11, 0),
    ]);
    has_group((MUX, a, b, c), &[
        (MUX, va, vb, vc), (XOR, va, vb, 0), (OR, 1, 3, 0), (OR, 7, 8, 0),
        (AND, 5, 9, 0), (MUX, 1, 3, vc), (OR, 10, 11, 0),
    ]);
}
