//! Checking images with inverted pins: request L3 of document 02. A pin of kinds
//! 2 to 8 may have the top bit, and 5 looks at the net number without it. Any
//! other operand with that bit is too large for 6, or is not 0 for 7.

use crate::checking::{accepts, refuses, refuses_pin};
use crate::images::*;
use crate::lent::*;
use crate::pins::{all_inversions, all_inverted, decoded_nine_kinds, inverted};
use reference::{check, doubled_size, Net, Pin};

// Net 2 may read nets 0 and 1, also inverted. Net 2 itself, those above it, and
// those of which the high byte is not 0 are refused with the bit as they are
// without it. 16,384 is the bit below the top bit, and a part of the number.
#[test]
fn an_inverted_pin_names_a_net_below_its_own() {
    for good in [inverted(0), inverted(1)] {
        accepts((NOT, good, 0, 0));
        accepts((OUT, good, 1, 0));
        for kind in [AND, OR, XOR] {
            accepts((kind, good, 0, 0));
            accepts((kind, 0, good, 0));
        }
        accepts((MUX, good, 0, 0));
        accepts((MUX, 0, good, 0));
        accepts((MUX, 0, 0, good));
    }
    for net in [2, 3, 256, 258, 8192, 16384, 16385, 32767] {
        for bad in [net, inverted(net)] {
            refuses_pin(bad);
        }
    }
}

// A bad pin is found also beside good inverted ones, at each of the pins.
#[test]
fn each_pin_is_looked_at_beside_inverted_ones() {
    let (good, bad) = (inverted(1), inverted(2));
    for kind in [AND, OR, XOR] {
        accepts((kind, good, good, 0));
        refuses((kind, bad, good, 0), 5);
        refuses((kind, good, bad, 0), 5);
    }
    accepts((MUX, good, good, good));
    refuses((MUX, bad, good, good), 5);
    refuses((MUX, good, bad, good), 5);
    refuses((MUX, good, good, bad), 5);
}

// N is 3, so a REG pin of net 2 may name 0, 1 and 2, also inverted.
#[test]
fn an_inverted_reg_pin_names_a_net_below_n() {
    for good in [0, 1, 2] {
        for start in 0..=2 {
            accepts((REG, inverted(good), start, 0));
        }
    }
    for bad in [3, 4, 256, 8192, 16384, 32767] {
        refuses((REG, inverted(bad), 0, 0), 5);
    }
}

// Net 0 has no net below it, so a NOT of net 0 inverted draws 5 there, and a REG
// may name itself. Net 1 of two nets may be named by a REG before it.
#[test]
fn inverted_pins_of_net_0() {
    check_refuses(&counted(&[(NOT, inverted(0), 0, 0)]), 5, 0);
    assert!(check(&counted(&[(REG, inverted(0), 0, 0)])).is_ok());
    let forward = |net: u16| counted(&[(REG, inverted(net), 0, 0), (CONST, 0, 0, 0)]);
    assert!(check(&forward(1)).is_ok());
    check_refuses(&forward(2), 5, 0);
}

/// 8,191 CONSTs and this entry as net 8,191.
fn last_of_8192(entry: Entry) -> Vec<u8> {
    let mut nets = vec![(CONST, 0, 0, 0); 8191];
    nets.push(entry);
    counted(&nets)
}

// The largest N is 8,192. The highest number that net 8,191 may name is 8,190,
// or 8,191 for a REG.
#[test]
fn inverted_pins_at_the_largest_n() {
    assert!(check(&last_of_8192((NOT, inverted(8190), 0, 0))).is_ok());
    check_refuses(&last_of_8192((NOT, inverted(8191), 0, 0)), 5, 8191);
    assert!(check(&last_of_8192((REG, inverted(8191), 0, 0))).is_ok());
    check_refuses(&last_of_8192((REG, inverted(8192), 0, 0)), 5, 8191);
}

// The value of a CONST, a start and a policy are not pins.
#[test]
fn the_bit_on_a_value_a_start_or_a_policy_draws_6() {
    for value in [0, 1, 2] {
        refuses((CONST, inverted(value), 0, 0), 6);
        refuses((REG, 0, inverted(value), 0), 6);
        refuses((REG, inverted(0), inverted(value), 0), 6);
        refuses((OUT, 0, inverted(value), 0), 6);
        refuses((OUT, inverted(0), inverted(value), 0), 6);
    }
}

// Operands that are not listed are 0, whatever the pins are.
#[test]
fn the_bit_on_an_unlisted_operand_draws_7() {
    let bit = inverted(0);
    refuses((CONST, 0, bit, 0), 7);
    refuses((CONST, 0, 0, bit), 7);
    refuses((INPUT, bit, 0, 0), 7);
    refuses((INPUT, 0, bit, 0), 7);
    refuses((INPUT, 0, 0, bit), 7);
    for pin in [0, inverted(0), inverted(1)] {
        refuses((REG, pin, 0, bit), 7);
        refuses((NOT, pin, bit, 0), 7);
        refuses((NOT, pin, 0, bit), 7);
        refuses((AND, pin, pin, bit), 7);
        refuses((OR, pin, pin, bit), 7);
        refuses((XOR, pin, pin, bit), 7);
        refuses((OUT, pin, 0, bit), 7);
    }
}

// Each entry has two or three faults, and the lowest number is given. The first
// bad pin is net 3, N itself, of a REG; the others are net 2, the entry's own.
#[test]
fn the_order_of_5_6_and_7_with_the_bit() {
    let bit = inverted(0);
    refuses((REG, inverted(3), bit, bit), 5);
    refuses((OUT, inverted(2), bit, bit), 5);
    refuses((NOT, inverted(2), bit, bit), 5);
    refuses((AND, 0, inverted(2), bit), 5);
    refuses((CONST, bit, bit, bit), 6);
    refuses((REG, inverted(2), bit, bit), 6);
    refuses((OUT, inverted(1), bit, bit), 6);
    refuses((9, bit, bit, bit), 4);
}

// I, R and O count the nets of their kinds, inverted pins or not. One too many
// draws 8.
#[test]
fn refusal_8_with_inverted_pins() {
    let nets = [
        (INPUT, 0, 0, 0),
        (REG, inverted(2), 0, 0),
        (OUT, inverted(1), 1, 0),
    ];
    assert!(check(&image(1, 1, 1, &nets)).is_ok());
    check_refuses(&image(2, 1, 1, &nets), 8, 0);
    check_refuses(&image(1, 2, 1, &nets), 8, 0);
    check_refuses(&image(1, 1, 2, &nets), 8, 0);
}

/// Changed forms of the counter with the top bit, which draw 5, 6 and 7, with the
/// place of each. The counter's operands start at byte 14, and 128 as a high
/// byte is the top bit.
fn bad_bits() -> Vec<(Vec<u8>, u32, usize)> {
    let changed = |index: usize, low: u8| {
        let mut bytes = COUNTER.to_vec();
        bytes[index] = low;
        bytes[index + 1] = 128;
        bytes
    };
    vec![
        // Operand a of net 2 is at byte 14 + 6 * 2. Net 2 is not below itself.
        (changed(26, 2), 5, 2),
        // Operand a of net 1 is at byte 14 + 6. Net 6 is not below N = 6.
        (changed(20, 6), 5, 1),
        // Operand b of net 1, the start, is at byte 14 + 6 + 2.
        (changed(22, 0), 6, 1),
        // Operand b of net 5, the policy, is at byte 14 + 6 * 5 + 2.
        (changed(46, 1), 6, 5),
        // Operand c of net 4 is at byte 14 + 6 * 4 + 4. An AND does not list c.
        (changed(42, 0), 7, 4),
    ]
}

#[test]
fn every_call_turns_back_and_changes_nothing() {
    for (image, number, place) in bad_bits() {
        check_refuses(&image, number, place);
        power_up_refuses(&image, &[77; 3], number, place);
        step_refuses(&image, (&[3, 1, 0], &[2], 6), number, place);
        run_refuses(&image, 2, (&[3, 1, 0], &[2, 2], 2), number, place);
        double_refuses(&image, 120, number, place);
        assert_eq!(doubled_size(&image), refused(number, place));
    }
}

// Every choice of inverted pins of one net of each kind is accepted.
#[test]
fn every_choice_of_inverted_pins_is_accepted() {
    for kind in 0..=8 {
        for entry in all_inversions((kind, 0, 0, 0)) {
            accepts(entry);
        }
    }
}

// A CONST 1 and a NOT of net 0 inverted, byte by byte. 32,768 is 0 + 256 * 128.
#[test]
fn the_bit_is_the_top_one_of_the_high_byte() {
    #[rustfmt::skip]
    let bytes = [
        2, 0, 0, 0, 0, 0, 0, 0,
        0, 3,
        1, 0, 0, 0, 0, 0,
        0, 128, 0, 0, 0, 0,
    ];
    let pin = Pin {
        net: 0,
        inverted: true,
    };
    let netlist = check(&bytes).unwrap();
    assert_eq!(netlist.nets, [Net::Const(true), Net::Not(pin)]);
}

// The lines of `NINE_KINDS`, in the decoded form with every pin inverted.
#[test]
fn the_decoded_form_of_the_nine_kinds_inverted() {
    let pin = |net: usize| Pin {
        net,
        inverted: true,
    };
    let image = counted(&all_inverted(&NINE_KINDS));
    assert_eq!(check(&image), Ok(decoded_nine_kinds(pin)));
}
