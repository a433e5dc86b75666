//! Where marks are exact: request L5 of document 02. Within one cycle, whenever no
//! marked input or register reaches a net along two different ways, that net is
//! marked exactly if other values of the marked inputs and registers would change
//! it.
//!
//! Other values are one joint choice of values for all inputs and registers that
//! are marked in this cycle. They are found here by trying all of them, on plain
//! values without marks.

use crate::codes::all_fillings;
use crate::images::*;
use crate::pins::{all_inversions, change_pins, inverted, pin_count, pins};
use crate::random::{random_nets, Numbers};
use crate::samples::{all_triples, sample, values, GATES};
use crate::states::with_count;

/// The number of ways along which net `from` reaches net `to`. A net reaches
/// itself along one way, which has no pin. Otherwise the last pin of a way is one
/// of `to`, and each pin has as many ways as lead to the net that it names. Every
/// pin of a gate or OUT counts, used or not, inverted or not. A register's own pin
/// counts as none, and a CONST and an INPUT have no pin.
pub fn ways(nets: &[Entry], from: usize, to: usize) -> usize {
    if from == to {
        return 1;
    }
    if nets[to].0 == REG {
        return 0;
    }
    let mut count = 0;
    for pin in pins(nets[to]) {
        count += ways(nets, from, usize::from(pin % 32768));
    }
    count
}

/// The plain values of all nets, 0 or 1, for the values of a row and of the
/// registers.
fn plain_values(nets: &[Entry], row: &[u8], registers: &[u8]) -> Vec<u8> {
    let mut found: Vec<u8> = Vec::new();
    let (mut row, mut registers) = (row.iter(), registers.iter());
    for (kind, a, b, c) in nets {
        let read = |pin: &u16| found[usize::from(pin % 32768)] ^ u8::from(*pin >= 32768);
        let value = match *kind {
            CONST => *a as u8,
            INPUT => row.next().unwrap() % 2,
            REG => registers.next().unwrap() % 2,
            NOT => 1 - read(a),
            AND => read(a) & read(b),
            OR => read(a) | read(b),
            XOR => read(a) ^ read(b),
            MUX => [read(a), read(b)][usize::from(read(c))],
            _ => read(a),
        };
        found.push(value);
    }
    found
}

/// One cycle of a netlist: its nets, and the bytes of its row and of its registers.
pub struct Cycle {
    pub nets: Vec<Entry>,
    pub row: Vec<u8>,
    pub registers: Vec<u8>,
}

/// A net in a cycle: its byte, the largest number of ways along which one marked
/// input or register reaches it, and whether other values would change it.
#[derive(Debug, PartialEq)]
pub struct Seen {
    pub byte: u8,
    pub ways: usize,
    pub changes: bool,
}

impl Seen {
    fn is_marked(&self) -> bool {
        self.byte >= 2
    }

    /// No marked input or register reaches the net along two different ways.
    fn is_reached_once_at_most(&self) -> bool {
        self.ways <= 1
    }

    /// What changes is marked. Where no marked input or register has two ways to
    /// the net, what is marked changes, too.
    fn is_as_claimed(&self) -> bool {
        match self.is_reached_once_at_most() {
            true => self.is_marked() == self.changes,
            false => self.is_marked() || !self.changes,
        }
    }
}

impl Cycle {
    /// All joint choices of values: each marked byte of the row and of the
    /// registers is 2 and 3, as an untrusted unknown is filled, and the others stay.
    fn choices(&self) -> Vec<(Vec<u8>, Vec<u8>)> {
        let open = |byte: &u8| if *byte >= 2 { 6 } else { *byte };
        let sources: Vec<u8> = self.row.iter().chain(&self.registers).map(open).collect();
        let mut all = Vec::new();
        for mut row in all_fillings(&sources) {
            let registers = row.split_off(self.row.len());
            all.push((row, registers));
        }
        all
    }

    /// For each net whether some joint choice gives it another value.
    fn changes(&self) -> Vec<bool> {
        let given = plain_values(&self.nets, &self.row, &self.registers);
        let mut changes = vec![false; given.len()];
        for (row, registers) in self.choices() {
            let other = plain_values(&self.nets, &row, &registers);
            for (net, value) in other.into_iter().enumerate() {
                changes[net] |= value != given[net];
            }
        }
        changes
    }

    /// All nets, with their bytes by a step.
    pub fn look(&self) -> Vec<Seen> {
        let state = with_count(&self.registers);
        let (_, bytes, _) = sample(&self.nets).step(&state, &self.row);
        assert_eq!(
            values(&bytes),
            plain_values(&self.nets, &self.row, &self.registers)
        );
        let mut seen = Vec::new();
        for (net, changes) in self.changes().into_iter().enumerate() {
            seen.push(Seen {
                byte: bytes[net],
                ways: self.most_ways(&bytes, net),
                changes,
            });
        }
        seen
    }

    /// The largest number of ways along which one marked input or register reaches
    /// this net, where the nets have these bytes. An INPUT and a REG have the byte
    /// of the row and of the register.
    fn most_ways(&self, bytes: &[u8], net: usize) -> usize {
        let mut most = 0;
        for (source, entry) in self.nets.iter().enumerate() {
            if matches!(entry.0, INPUT | REG) && bytes[source] >= 2 {
                most = most.max(ways(&self.nets, source, net));
            }
        }
        most
    }
}

/// A cycle of these nets with any row and any registers.
fn random_cycle(numbers: &mut Numbers, nets: &[Entry]) -> Cycle {
    let source = sample(nets);
    Cycle {
        nets: nets.to_vec(),
        row: numbers.bytes(source.inputs),
        registers: numbers.bytes(source.registers),
    }
}

/// How often a gate or OUT was found of each form.
#[derive(Debug, Default)]
struct Counts {
    /// The condition holds and the net is marked.
    marked: usize,
    /// The condition holds and the net is unmarked, although a marked input or
    /// register reaches it.
    held_back: usize,
    /// The condition does not hold, and the net is marked and does not change.
    inexact: usize,
}

impl Counts {
    fn add(&mut self, seen: &Seen) {
        match (seen.is_reached_once_at_most(), seen.is_marked()) {
            (true, true) => self.marked += 1,
            (true, false) if seen.ways == 1 => self.held_back += 1,
            (false, true) if !seen.changes => self.inexact += 1,
            _ => {}
        }
    }
}

// Netlists of 2 to 10 nets of all kinds, with registers of all starts, about half
// of them with inverted pins, each in four cycles with any row and any registers.
// The forms are counted, so that the claim is tried on each of them.
#[test]
fn marks_are_exact_where_no_marked_source_has_two_ways() {
    let mut numbers = Numbers(29);
    let mut counts = Counts::default();
    for _ in 0..5000 {
        let n = 2 + numbers.below(9);
        let nets = random_nets(&mut numbers, n);
        for _ in 0..4 {
            let cycle = random_cycle(&mut numbers, &nets);
            for (net, seen) in cycle.look().iter().enumerate() {
                assert!(seen.is_as_claimed(), "net {net} of {nets:?}: {seen:?}");
                if nets[net].0 > REG {
                    counts.add(seen);
                }
            }
        }
    }
    assert!(counts.marked > 1000, "{counts:?}");
    assert!(counts.held_back > 1000, "{counts:?}");
    assert!(counts.inexact > 1000, "{counts:?}");
}

/// Some INPUTs, REGs and CONSTs, and then gates and OUTs on nets that are on no
/// other pin. So each net reaches each other one along at most one way. The pins
/// of the REGs name any of the first nets, and do not count.
fn random_trees(numbers: &mut Numbers) -> Vec<Entry> {
    let first = 3 + numbers.below(6);
    let mut nets: Vec<Entry> = Vec::new();
    for _ in 0..first {
        nets.push(match numbers.below(5) {
            0 => (CONST, numbers.operand(2), 0, 0),
            1 | 2 => (INPUT, 0, 0, 0),
            _ => (REG, numbers.operand(first), numbers.operand(3), 0),
        });
    }
    let mut unread: Vec<u16> = (0..first as u16).collect();
    for _ in 0..first {
        let kind = [NOT, AND, OR, XOR, MUX, MUX, OUT][numbers.below(7)];
        if pin_count(kind) <= unread.len() {
            let gate = change_pins((kind, 0, 0, 0), |_| {
                let net = unread.remove(numbers.below(unread.len()));
                [net, inverted(net)][numbers.below(2)]
            });
            unread.push(nets.len() as u16);
            nets.push(gate);
        }
    }
    nets
}

// In trees the condition holds at every net, so every mark is exact, also behind
// several gates.
#[test]
fn every_mark_of_a_tree_is_exact() {
    let mut numbers = Numbers(30);
    let mut counts = Counts::default();
    for _ in 0..2000 {
        let nets = random_trees(&mut numbers);
        let cycle = random_cycle(&mut numbers, &nets);
        for (net, seen) in cycle.look().iter().enumerate() {
            assert!(seen.is_reached_once_at_most(), "net {net} of {nets:?}");
            assert!(seen.is_as_claimed(), "net {net} of {nets:?}: {seen:?}");
            if nets[net].0 > REG {
                counts.add(seen);
            }
        }
    }
    assert!(counts.marked > 1000, "{counts:?}");
    assert!(counts.held_back > 1000, "{counts:?}");
}

// One gate or OUT on three INPUTs, with each choice of its pins inverted, in all
// 64 rows. Each INPUT reaches the gate along one way or none, so every entry of the
// tables of the gates is exact.
#[test]
fn every_entry_of_the_tables_is_exact() {
    for gate in GATES.into_iter().flat_map(all_inversions) {
        for row in all_triples() {
            let mut nets = vec![(INPUT, 0, 0, 0); 3];
            nets.push(gate);
            let cycle = Cycle {
                nets,
                row: row.to_vec(),
                registers: Vec::new(),
            };
            let seen = cycle.look().remove(3);
            assert!(seen.is_reached_once_at_most(), "{gate:?}");
            assert_eq!(seen.is_marked(), seen.changes, "{gate:?}: {seen:?}");
        }
    }
}
