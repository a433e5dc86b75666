//! The group lengths, the limit of doubling, and the settings that it keeps or
//! drops.

use crate::images::*;
use crate::lent::*;
use reference::{check, double, doubled_size, Net, Pin, Policy, Start, GROUP_LENGTHS};

#[test]
fn group_lengths_are_those_of_the_document() {
    assert_eq!(GROUP_LENGTHS, [2, 2, 2, 2, 6, 8, 2, 7, 2]);
}

// 8 + 7 * 8,192 is 57,352.
#[test]
fn a_doubled_netlist_of_8192_nets_is_accepted() {
    let mut buffer = vec![77; 57352];
    assert_eq!(double(&doubles_to_8192(), &mut buffer), Ok(()));
    assert_eq!(check(&buffer).unwrap().nets.len(), 8192);
    double_refuses(&doubles_to_8192(), 57351, 16, 0);
}

// The AND's group is nets 8,186 to 8,191, and v, t of the CONST are 0, 1. So
// the group is AND(0, 0); AND(1, 0); AND(1, 0); AND(1, 1); OR(8187, 8188);
// OR(8190, 8189). 8,187 is 251 + 256 * 31, and so on. The kinds of the group
// stand at bytes 8 + 8,186 to 8 + 8,191, its operands are the last 36 bytes.
#[test]
fn the_last_group_of_8192_nets_byte_for_byte() {
    let mut buffer = vec![77; 57352];
    double(&doubles_to_8192(), &mut buffer).unwrap();
    assert_eq!(buffer[..8], [0, 32, 0, 0, 0, 0, 0, 0]);
    assert_eq!(buffer[8194..8200], [4, 4, 4, 4, 5, 5]);
    #[rustfmt::skip]
    let operands = [
        0, 0, 0, 0, 0, 0,
        1, 0, 0, 0, 0, 0,
        1, 0, 0, 0, 0, 0,
        1, 0, 1, 0, 0, 0,
        251, 31, 252, 31, 0, 0,
        254, 31, 253, 31, 0, 0,
    ];
    assert_eq!(buffer[57316..], operands);
}

// 2 + 8 * 1,024 is 8,194. 8 + 7 * 8,194 is 57,366.
#[test]
fn a_doubled_netlist_of_8194_nets_is_refused() {
    double_refuses(&counted(&const_and_ors(1024)), 57366, 15, 0);
}

// 8 + 7 * 8,193 is 57,359.
#[test]
fn a_doubled_netlist_of_8193_nets_is_refused() {
    double_refuses(&doubles_to_8193(), 57359, 15, 0);
}

// A CONST and 8,191 ORs: 2 + 8 * 8,191 = 65,530, the largest size of all, and 8
// + 7 * 65,530 = 458,718 bytes.
#[test]
fn the_largest_doubled_netlist_is_refused() {
    let image = counted(&const_and_ors(8191));
    double_refuses(&image, 458718, 15, 0);
    double_refuses(&image, 0, 15, 0);
}

// The value register keeps the start 0, 1 or 2. The mark register starts at 1
// beside a start of 2, otherwise at 0. The registers' groups are at nets 0, 2
// and 4, and each register holds its own byte.
#[test]
fn the_starts_of_value_and_mark_registers() {
    let mut buffer = [77; 50];
    double(&three_registers(), &mut buffer).unwrap();
    let reg = |net: usize, start: Start| Net::Reg(Pin::plain(net), start);
    let expected = [
        reg(0, Start::Zero),
        reg(1, Start::Zero),
        reg(2, Start::One),
        reg(3, Start::Zero),
        reg(4, Start::NoneGiven),
        reg(5, Start::One),
    ];
    assert_eq!(check(&buffer).unwrap().nets, expected);
}

// Both OUTs of a group are free, whatever the policy was.
#[test]
fn doubled_outs_are_free() {
    let image = counted(&[(INPUT, 0, 0, 0), (OUT, 0, 1, 0), (OUT, 1, 0, 0)]);
    let mut buffer = [77; 50];
    double(&image, &mut buffer).unwrap();
    let out = |net: usize| Net::Out(Pin::plain(net), Policy::Free);
    let expected = [Net::Input, Net::Input, out(0), out(1), out(2), out(3)];
    assert_eq!(check(&buffer).unwrap().nets, expected);
}

// The doubled counter has 2 INPUTs, 2 REGs, 2 NOTs, 2 ORs, the AND's group and
// 2 OUTs. Doubled again: 4 + 4 + 4 + 16 + (4 * 6 + 2 * 8) + 4 = 72 nets.
#[test]
fn a_doubled_image_may_be_doubled() {
    let mut once = [77; 120];
    double(&COUNTER, &mut once).unwrap();
    assert_eq!(doubled_size(&once).unwrap().nets, 72);
    let mut twice = vec![77; 8 + 7 * 72];
    assert_eq!(double(&once, &mut twice), Ok(()));
    let netlist = check(&twice).unwrap();
    assert_eq!(netlist.inputs, 4);
    assert_eq!(netlist.registers, 4);
    assert_eq!(netlist.outputs, 4);
}
