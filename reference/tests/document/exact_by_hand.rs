//! Small netlists by hand for the claim that marks are exact: request L5 of
//! document 02. Each net is given with its byte, the largest number of ways along
//! which one marked input or register reaches it, and whether other values of the
//! marked inputs and registers would change it.

use crate::exact_marks::{ways, Cycle, Seen};
use crate::images::*;
use crate::pins::{inverted, without_inversions};

/// In a cycle with this row and these registers the nets are as listed, one after
/// the other.
fn nets_are(nets: &[Entry], row: &[u8], registers: &[u8], expected: &[(u8, usize, bool)]) {
    let cycle = Cycle {
        nets: nets.to_vec(),
        row: row.to_vec(),
        registers: registers.to_vec(),
    };
    let expected: Vec<Seen> = expected
        .iter()
        .map(|(byte, ways, changes)| Seen {
            byte: *byte,
            ways: *ways,
            changes: *changes,
        })
        .collect();
    assert_eq!(cycle.look(), expected);
}

// XOR of one INPUT with itself is 0 for both values of the INPUT. Both pins are a
// way, so its mark need not be exact, and it is not: XOR(2, 2) is 2. Unmarked, the
// INPUT does not count as reaching it.
#[test]
fn xor_of_a_net_with_itself_has_two_ways() {
    let nets = [(INPUT, 0, 0, 0), (XOR, 0, 0, 0)];
    assert_eq!(ways(&nets, 0, 1), 2);
    nets_are(&nets, &[2], &[], &[(2, 1, true), (2, 2, false)]);
    nets_are(&nets, &[3], &[], &[(3, 1, true), (2, 2, false)]);
    nets_are(&nets, &[0], &[], &[(0, 0, false), (0, 0, false)]);
}

// A select between two ones: 0 INPUT; 1 CONST 1; of four gates 2 NOT 0; 3 AND(1,
// 2); 4 AND(1, 0); 5 OR(3, 4); and 6 MUX(1, 1, 0). The value of nets 5 and 6 is 1
// for both values of the select. It reaches net 5 along two ways, over nets 3 and
// 4, and net 6 along one.
//
// - Row 2: NOT 2 is 3, AND(1, 3) is 3, AND(1, 2) is 2, OR(3, 2) is 3, which is
//   inexact. MUX(1, 1, 2) is 1, which is exact.
// - Row 3: NOT 3 is 2, AND(1, 2) is 2, AND(1, 3) is 3, OR(2, 3) is 3, MUX(1, 1, 3)
//   is 1.
#[test]
fn a_select_between_two_ones_of_four_gates_and_as_a_mux() {
    let nets = [
        (INPUT, 0, 0, 0),
        (CONST, 1, 0, 0),
        (NOT, 0, 0, 0),
        (AND, 1, 2, 0),
        (AND, 1, 0, 0),
        (OR, 3, 4, 0),
        (MUX, 1, 1, 0),
    ];
    for (row, bytes) in [(2, [2, 1, 3, 3, 2, 3, 1]), (3, [3, 1, 2, 2, 3, 3, 1])] {
        let ways = [1, 0, 1, 1, 1, 2, 1];
        let changes = [true, false, true, true, true, false, false];
        let mut expected = Vec::new();
        for net in 0..7 {
            expected.push((bytes[net], ways[net], changes[net]));
        }
        nets_are(&nets, &[row], &[], &expected);
    }
}

/// 0 CONST 1; 1 INPUT d; 2, 3 and 4 INPUTs, the selects; 5 MUX(0, 1, 2); 6 MUX(1,
/// 0, 3); 7 MUX(5, 6, 4). Each select reaches net 7 along one way, d along two.
const TREE: [Entry; 8] = [
    (CONST, 1, 0, 0),
    (INPUT, 0, 0, 0),
    (INPUT, 0, 0, 0),
    (INPUT, 0, 0, 0),
    (INPUT, 0, 0, 0),
    (MUX, 0, 1, 2),
    (MUX, 1, 0, 3),
    (MUX, 5, 6, 4),
];

/// In a cycle of the tree with this row nets 5, 6 and 7 are as listed.
fn tree_is(row: [u8; 4], expected: [(u8, usize, bool); 3]) {
    let mut all = vec![(1, 0, false)];
    for byte in row {
        let marked = byte >= 2;
        all.push((byte, usize::from(marked), marked));
    }
    all.extend(expected);
    nets_are(&TREE, &row, &[], &all);
}

// The rows are d and the three selects.
//
// - 1, 2, 3, 2: MUX(1, 1, 2) is 1, MUX(1, 1, 3) is 1 and MUX(1, 1, 2) is 1. All
//   selects are marked, and whatever they choose is 1.
// - 0, 2, 1, 2: MUX(1, 0, 2) is 3, MUX(0, 1, 1) is 1 and MUX(3, 1, 2) is 3. The
//   first select with 1 and the last with 0 choose d, which is 0.
// - 0, 2, 1, 1: MUX(3, 1, 1) is 1. The last select is trusted and chooses net 6.
//   The first one reaches net 7 over a pin that is not used, and changes nothing.
// - 3, 0, 0, 2: MUX(1, 3, 0) is 1, MUX(3, 1, 0) is 3 and MUX(1, 3, 2) is 3. d with
//   0 and the last select with 1 change it together, though d has two ways.
#[test]
fn a_tree_of_muxes() {
    tree_is([1, 2, 3, 2], [(1, 1, false), (1, 1, false), (1, 1, false)]);
    tree_is([0, 2, 1, 2], [(3, 1, true), (1, 0, false), (3, 1, true)]);
    tree_is([0, 2, 1, 1], [(3, 1, true), (1, 0, false), (1, 1, false)]);
    tree_is([3, 0, 0, 2], [(1, 1, false), (3, 1, true), (3, 2, true)]);
}

// One select at all three MUXes: 3 MUX(0, 1, s) is s, 4 MUX(1, 0, s) is the other
// value, and 5 MUX(3, 4, s) is 0 for s = 0, by net 3, and 0 for s = 1, by net 4.
// The select reaches net 5 along three ways, and the mark of net 5 is inexact.
//
// - Row 2: MUX(0, 1, 2) is 2, MUX(1, 0, 2) is 3, MUX(2, 3, 2) is 2.
// - Row 3: MUX(0, 1, 3) is 3, MUX(1, 0, 3) is 2, MUX(3, 2, 3) is 2.
#[test]
fn a_tree_of_muxes_with_one_select() {
    let nets = [
        (CONST, 0, 0, 0),
        (CONST, 1, 0, 0),
        (INPUT, 0, 0, 0),
        (MUX, 0, 1, 2),
        (MUX, 1, 0, 2),
        (MUX, 3, 4, 2),
    ];
    for (row, bytes) in [(2, [2, 3, 2]), (3, [3, 2, 2])] {
        let expected = [
            (0, 0, false),
            (1, 0, false),
            (row, 1, true),
            (bytes[0], 1, true),
            (bytes[1], 1, true),
            (bytes[2], 3, false),
        ];
        nets_are(&nets, &[row], &[], &expected);
    }
}

// AND of an INPUT and a REG, both 0. With 1 for one of the two it stays 0, and
// with 1 for both it is 1. So it changes if both are marked, by one joint choice,
// and AND(2, 2) is 2. If one of them is trusted, it does not change: AND(2, 0) and
// AND(0, 2) are 0.
#[test]
fn and_of_an_input_and_a_register_changes_by_both_together() {
    let nets = [(INPUT, 0, 0, 0), (REG, 1, 0, 0), (AND, 0, 1, 0)];
    let (marked, trusted) = ((2, 1, true), (0, 0, false));
    nets_are(&nets, &[2], &[2], &[marked, marked, (2, 1, true)]);
    nets_are(&nets, &[2], &[0], &[marked, trusted, (0, 1, false)]);
    nets_are(&nets, &[0], &[2], &[trusted, marked, (0, 1, false)]);
}

// An inverted pin is a way as a plain one is: 0 and 1 INPUT; 2 AND(0 inverted, 1);
// 3 XOR(0, 0 inverted), which is 1 for both values of net 0.
//
// - Row 3, 1: AND(2, 1) is 2, and with 0 for net 0 it is 1. XOR(3, 2) is 3.
// - Row 2, 0: AND(3, 0) is 0 for both values of net 0. XOR(2, 3) is 3.
#[test]
fn an_inverted_pin_is_one_way() {
    let nets = [
        (INPUT, 0, 0, 0),
        (INPUT, 0, 0, 0),
        (AND, inverted(0), 1, 0),
        (XOR, 0, inverted(0), 0),
    ];
    for nets in [&nets[..], &without_inversions(&nets)] {
        assert_eq!((ways(nets, 0, 2), ways(nets, 1, 2)), (1, 1));
        assert_eq!((ways(nets, 0, 3), ways(nets, 1, 3)), (2, 0));
    }
    let expected = [(3, 1, true), (1, 0, false), (2, 1, true), (3, 2, false)];
    nets_are(&nets, &[3, 1], &[], &expected);
    let expected = [(2, 1, true), (0, 0, false), (0, 1, false), (3, 2, false)];
    nets_are(&nets, &[2, 0], &[], &expected);
}

// 0 INPUT; 1 REG of net 0; 2 XOR(0, 1); 3 REG of itself inverted; 4 REG of net 5;
// 5 NOT 4. No other net reaches a REG. With its pin as a way, net 0 would reach
// net 2 along two ways, and the count around nets 4 and 5 would not end.
//
// - Row 2, first register 0: net 1 is a trusted 0 in this cycle, whatever the row is.
//   XOR(2, 0) is 2.
// - Row 2, first register 2: XOR(2, 2) is 2, and the two reach it along one way
//   each.
#[test]
fn the_pin_of_a_register_is_no_way() {
    let nets = [
        (INPUT, 0, 0, 0),
        (REG, 0, 0, 0),
        (XOR, 0, 1, 0),
        (REG, inverted(3), 1, 0),
        (REG, 5, 2, 0),
        (NOT, 4, 0, 0),
    ];
    assert_eq!((ways(&nets, 0, 1), ways(&nets, 5, 4)), (0, 0));
    assert_eq!((ways(&nets, 0, 2), ways(&nets, 1, 2)), (1, 1));
    assert_eq!((ways(&nets, 3, 3), ways(&nets, 4, 5)), (1, 1));
    let behind = [(1, 0, false), (2, 1, true), (3, 1, true)];
    let mut expected = vec![(2, 1, true), (0, 0, false), (2, 1, true)];
    expected.extend(behind);
    nets_are(&nets, &[2], &[0, 1, 2], &expected);
    let mut expected = vec![(2, 1, true), (2, 1, true), (2, 1, true)];
    expected.extend(behind);
    nets_are(&nets, &[2], &[2, 1, 2], &expected);
}

// 0 INPUT; 1 CONST 0; 2 MUX(1, 0, 1), which does not choose b; 3 AND(0, 1), which
// holds its pin a back; 4 OR(0, 2); 5 OR(2, 3). The pins that are not used count
// as ways. Row 2: MUX(0, 2, 0) is 0, AND(2, 0) is 0, OR(2, 0) is 2, OR(0, 0) is 0.
#[test]
fn a_pin_that_is_not_used_is_a_way() {
    let nets = [
        (INPUT, 0, 0, 0),
        (CONST, 0, 0, 0),
        (MUX, 1, 0, 1),
        (AND, 0, 1, 0),
        (OR, 0, 2, 0),
        (OR, 2, 3, 0),
    ];
    let expected = [
        (2, 1, true),
        (0, 0, false),
        (0, 1, false),
        (0, 1, false),
        (2, 2, true),
        (0, 2, false),
    ];
    nets_are(&nets, &[2], &[], &expected);
}

// An operand that is no pin is no way, although it is 0: b and c of a NOT, and c of
// an AND. The pin of an OUT is a way as a gate's is. 0 INPUT; 1 NOT 0; 2 AND(1,
// 1); 3 OUT 0, protected; 4 XOR(0, 3). Row 2: NOT 2 is 3, AND(3, 3) is 3, OUT 2,
// XOR(2, 2) is 2, which is 0 for both values of net 0.
#[test]
fn the_ways_over_an_out_and_over_no_other_operand() {
    let nets = [
        (INPUT, 0, 0, 0),
        (NOT, 0, 0, 0),
        (AND, 1, 1, 0),
        (OUT, 0, 1, 0),
        (XOR, 0, 3, 0),
    ];
    let expected = [
        (2, 1, true),
        (3, 1, true),
        (3, 2, true),
        (2, 1, true),
        (2, 2, false),
    ];
    nets_are(&nets, &[2], &[], &expected);
}

// 0 and 1 INPUT; 2 AND(0, 1); 3 AND(0, 2). Net 0 reaches net 3 along two ways and
// net 1 along one. The condition speaks of marked ones alone, so with the row 1, 2
// it holds at net 3: AND(1, 2) is 2 at both ANDs. With the row 3, 1 it does not.
#[test]
fn a_trusted_net_may_have_two_ways() {
    let nets = [
        (INPUT, 0, 0, 0),
        (INPUT, 0, 0, 0),
        (AND, 0, 1, 0),
        (AND, 0, 2, 0),
    ];
    let expected = [(1, 0, false), (2, 1, true), (2, 1, true), (2, 1, true)];
    nets_are(&nets, &[1, 2], &[], &expected);
    let expected = [(3, 1, true), (1, 0, false), (3, 1, true), (3, 2, true)];
    nets_are(&nets, &[3, 1], &[], &expected);
}
