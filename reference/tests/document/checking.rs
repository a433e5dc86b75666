//! Checking one net at a time: refusals 4 to 8 for each kind, and the decoded
//! form.

use crate::images::*;
use crate::lent::*;
use crate::pins::decoded_nine_kinds;
use reference::{check, Net, Pin};

/// Two CONSTs as nets 0 and 1, and the given entry as net 2.
fn third(entry: Entry) -> Vec<u8> {
    counted(&[(CONST, 0, 0, 0), (CONST, 1, 0, 0), entry])
}

/// The entry is accepted as net 2.
pub fn accepts(entry: Entry) {
    assert!(check(&third(entry)).is_ok(), "{entry:?}");
}

/// The entry is refused as net 2, which is the place.
pub fn refuses(entry: Entry, number: u32) {
    assert_eq!(check(&third(entry)), refused(number, 2), "{entry:?}");
}

/// A gate and an OUT as net 2 are refused with this pin, at each of their pins.
pub fn refuses_pin(bad: u16) {
    refuses((NOT, bad, 0, 0), 5);
    refuses((OUT, bad, 0, 0), 5);
    for kind in [AND, OR, XOR] {
        refuses((kind, bad, 0, 0), 5);
        refuses((kind, 0, bad, 0), 5);
    }
    refuses((MUX, bad, 0, 0), 5);
    refuses((MUX, 0, bad, 0), 5);
    refuses((MUX, 0, 0, bad), 5);
}

#[test]
fn kinds_0_to_8_are_accepted_and_those_above_refused() {
    for kind in 0..=8 {
        accepts((kind, 0, 0, 0));
    }
    for kind in 9..=255 {
        refuses((kind, 0, 0, 0), 4);
    }
}

// Net 2 may read nets 0 and 1. Net 258 is 2 + 256, so its high byte counts.
#[test]
fn a_pin_names_a_net_below_its_own() {
    for bad in [2, 3, 258, 256, 65535] {
        refuses_pin(bad);
    }
    accepts((NOT, 1, 0, 0));
    accepts((OUT, 1, 0, 0));
    for kind in [AND, OR, XOR] {
        accepts((kind, 1, 1, 0));
    }
    accepts((MUX, 1, 1, 1));
}

// N is 3, so a REG pin of net 2 may name 0, 1 and 2.
#[test]
fn a_reg_pin_names_a_net_below_n() {
    for good in [0, 1, 2] {
        accepts((REG, good, 0, 0));
    }
    for bad in [3, 4, 256, 65535] {
        refuses((REG, bad, 0, 0), 5);
    }
}

// Net 0 of two nets reads net 1, which stands after it.
#[test]
fn a_reg_pin_may_point_forward() {
    assert!(check(&counted(&[(REG, 1, 0, 0), (CONST, 0, 0, 0)])).is_ok());
    check_refuses(&counted(&[(REG, 2, 0, 0), (CONST, 0, 0, 0)]), 5, 0);
}

#[test]
fn const_start_and_policy_have_limits() {
    accepts((CONST, 0, 0, 0));
    accepts((CONST, 1, 0, 0));
    accepts((REG, 0, 0, 0));
    accepts((REG, 0, 1, 0));
    accepts((REG, 0, 2, 0));
    accepts((OUT, 0, 0, 0));
    accepts((OUT, 0, 1, 0));
    for high in [0, 256, 65280] {
        refuses((CONST, high + 2, 0, 0), 6);
        refuses((REG, 0, high + 3, 0), 6);
        refuses((OUT, 0, high + 2, 0), 6);
    }
}

// 256 and 65,535 have a high byte that is not 0.
#[test]
fn unlisted_operands_are_0() {
    for other in [1, 256, 65535] {
        refuses((CONST, 0, other, 0), 7);
        refuses((CONST, 0, 0, other), 7);
        refuses((INPUT, other, 0, 0), 7);
        refuses((INPUT, 0, other, 0), 7);
        refuses((INPUT, 0, 0, other), 7);
        refuses((REG, 0, 0, other), 7);
        refuses((NOT, 0, other, 0), 7);
        refuses((NOT, 0, 0, other), 7);
        refuses((AND, 0, 0, other), 7);
        refuses((OR, 0, 0, other), 7);
        refuses((XOR, 0, 0, other), 7);
        refuses((OUT, 0, 0, other), 7);
    }
}

// Each of I, R and O is one too high, one too low, or wrong in its high byte.
#[test]
fn each_of_the_three_counts_must_hold() {
    let nets = [
        (INPUT, 0, 0, 0),
        (INPUT, 0, 0, 0),
        (REG, 0, 0, 0),
        (REG, 0, 0, 0),
        (OUT, 0, 0, 0),
        (OUT, 0, 0, 0),
    ];
    assert!(check(&image(2, 2, 2, &nets)).is_ok());
    for wrong in [0, 1, 3, 258] {
        check_refuses(&image(wrong, 2, 2, &nets), 8, 0);
        check_refuses(&image(2, wrong, 2, &nets), 8, 0);
        check_refuses(&image(2, 2, wrong, &nets), 8, 0);
    }
}

// Two INPUTs and one REG, with I and R exchanged. The sum is right, the counts
// are not.
#[test]
fn counts_are_compared_one_by_one() {
    let nets = [(INPUT, 0, 0, 0), (INPUT, 0, 0, 0), (REG, 0, 0, 0)];
    assert!(check(&image(2, 1, 0, &nets)).is_ok());
    check_refuses(&image(1, 2, 0, &nets), 8, 0);
}

// All kind bytes stand first, then all operands: a CONST 1 and a NOT 0 by hand.
#[test]
fn kinds_stand_first_and_operands_after_them() {
    #[rustfmt::skip]
    let bytes = [
        2, 0, 0, 0, 0, 0, 0, 0,
        0, 3,
        1, 0, 0, 0, 0, 0,
        0, 0, 0, 0, 0, 0,
    ];
    let netlist = check(&bytes).unwrap();
    assert_eq!(netlist.nets, [Net::Const(true), Net::Not(Pin::plain(0))]);
}

// The lines of `nine_kinds`, in the decoded form.
#[test]
fn the_decoded_form_of_the_nine_kinds() {
    assert_eq!(check(&nine_kinds()), Ok(decoded_nine_kinds(Pin::plain)));
}
