//! Netlists for the tests that join two results, and accepted calls on them.

use crate::images::*;
use crate::pins::all_inversions;
use crate::random::{random_nets, Numbers};
use crate::states::{registers, with_count};
use reference::{
    double, doubled_size, power_up, run, static_power_up, static_run, step, FirstFlow, Verdict,
};

/// A good netlist image with its N, I, R and O.
#[derive(Clone)]
pub struct Sample {
    pub image: Vec<u8>,
    pub n: usize,
    pub inputs: usize,
    pub registers: usize,
    pub outputs: usize,
}

/// The verdict, the net bytes and the new state of a step.
pub type Stepped = (Verdict, Vec<u8>, Vec<u8>);

/// The answer, the output bytes and the last state of a run.
pub type Ran = (FirstFlow, Vec<u8>, Vec<u8>);

impl Sample {
    /// The bytes of the OUTs in net order. The kind bytes start at byte 8.
    pub fn outs(&self, nets: &[u8]) -> Vec<u8> {
        let is_out = |number: &usize| self.image[8 + *number] == OUT;
        let numbers = (0..self.n).filter(is_out);
        numbers.map(|number| nets[number]).collect()
    }

    /// The row of a cycle among rows of I bytes each.
    pub fn row<'a>(&self, rows: &'a [u8], cycle: usize) -> &'a [u8] {
        &rows[cycle * self.inputs..(cycle + 1) * self.inputs]
    }

    /// The state at power-up.
    pub fn power_up(&self) -> Vec<u8> {
        let mut state = vec![77; self.registers + 2];
        power_up(&self.image, &mut state).unwrap();
        has_right_count(&state);
        state
    }

    pub fn step(&self, state: &[u8], row: &[u8]) -> Stepped {
        self.step_over(77, state, row)
    }

    /// A step whose lent buffer holds bytes `fill` before it.
    pub fn step_over(&self, fill: u8, state: &[u8], row: &[u8]) -> Stepped {
        let mut state = state.to_vec();
        let mut nets = vec![fill; self.n];
        let verdict = step(&self.image, &mut state, row, &mut nets).unwrap();
        has_right_count(&state);
        (verdict, nets, state)
    }

    pub fn run(&self, state: &[u8], k: usize, rows: &[u8]) -> Ran {
        self.run_over(77, state, k, rows)
    }

    /// A run whose lent buffer holds bytes `fill` before it.
    pub fn run_over(&self, fill: u8, state: &[u8], k: usize, rows: &[u8]) -> Ran {
        let mut state = state.to_vec();
        let mut outputs = vec![fill; k * self.outputs];
        let answer = run(&self.image, k, &mut state, rows, &mut outputs).unwrap();
        has_right_count(&state);
        (answer, outputs, state)
    }

    /// A run from the state with these register bytes. Of its last state the
    /// register bytes alone are given, which is what a static state is held against.
    pub fn run_registers(&self, bytes: &[u8], k: usize, rows: &[u8]) -> Ran {
        let (answer, outputs, state) = self.run(&with_count(bytes), k, rows);
        (answer, outputs, registers(&state).to_vec())
    }

    /// The state at static power-up.
    pub fn static_power_up(&self) -> Vec<u8> {
        let mut state = vec![77; self.registers];
        static_power_up(&self.image, &mut state).unwrap();
        state
    }

    pub fn static_run(&self, state: &[u8], k: usize, rows: &[u8]) -> Ran {
        let mut state = state.to_vec();
        let mut outputs = vec![77; k * self.outputs];
        let answer = static_run(&self.image, k, &mut state, rows, &mut outputs).unwrap();
        (answer, outputs, state)
    }

    /// The doubled netlist, which has two inputs, registers and outputs for one.
    pub fn doubled(&self) -> Sample {
        let n = doubled_size(&self.image).unwrap().nets;
        let mut image = vec![77; 8 + 7 * n];
        double(&self.image, &mut image).unwrap();
        Sample {
            image,
            n,
            inputs: 2 * self.inputs,
            registers: 2 * self.registers,
            outputs: 2 * self.outputs,
        }
    }
}

/// The count of a state that a call left is that of its register bytes.
fn has_right_count(state: &[u8]) {
    assert_eq!(state, with_count(registers(state)));
}

pub fn sample(nets: &[Entry]) -> Sample {
    let count = |kind: u8| nets.iter().filter(|net| net.0 == kind).count();
    Sample {
        image: counted(nets),
        n: nets.len(),
        inputs: count(INPUT),
        registers: count(REG),
        outputs: count(OUT),
    }
}

/// Netlists of 1 to 30 nets of all kinds, with registers of all starts. About
/// half of them have inverted pins.
pub fn samples(numbers: &mut Numbers) -> Vec<Sample> {
    let mut all = Vec::new();
    for _ in 0..600 {
        let n = 1 + numbers.below(30);
        all.push(sample(&random_nets(numbers, n)));
    }
    all
}

/// Each gate, and OUT, on nets 0 to 2.
pub const GATES: [Entry; 6] = [
    (NOT, 0, 0, 0),
    (AND, 0, 1, 0),
    (OR, 0, 1, 0),
    (XOR, 0, 1, 0),
    (MUX, 0, 1, 2),
    (OUT, 2, 0, 0),
];

/// For each gate and for OUT, with each choice of its pins inverted: three nets
/// of this kind, the gate on them as net 3, and a protected OUT of the gate. The
/// three nets are INPUTs, or they are REGs with start 2 that hold their bytes.
pub fn gates_on(kind: u8) -> Vec<Sample> {
    let source = |net: u16| match kind {
        REG => (REG, net, 2, 0),
        _ => (kind, 0, 0, 0),
    };
    let nets = |gate: Entry| [source(0), source(1), source(2), gate, (OUT, 3, 1, 0)];
    let all = GATES.into_iter().flat_map(all_inversions);
    all.map(|gate| sample(&nets(gate))).collect()
}

/// Three REGs with start 2, of which each takes the byte of another and the last
/// points backward, with each choice of their pins inverted. Behind each of them
/// stands a protected OUT of it, whose pin is inverted if the REG's is.
pub fn rings() -> Vec<Sample> {
    let mut all = Vec::new();
    for first in all_inversions((REG, 2, 2, 0)) {
        for second in all_inversions((REG, 4, 2, 0)) {
            for third in all_inversions((REG, 0, 2, 0)) {
                let out = |reg: Entry, net: u16| (OUT, net + (reg.1 & 32768), 1, 0);
                let outs = [out(first, 0), out(second, 2), out(third, 4)];
                let nets = [first, outs[0], second, outs[1], third, outs[2]];
                all.push(sample(&nets));
            }
        }
    }
    all
}

/// All 64 lists of three bytes from 0 to 3.
pub fn all_triples() -> Vec<[u8; 3]> {
    (0..64).map(|n| [n % 4, n / 4 % 4, n / 16]).collect()
}

/// Each byte v + 2t as the two bytes v, t.
pub fn split(bytes: &[u8]) -> Vec<u8> {
    bytes.iter().flat_map(|byte| [byte % 2, byte / 2]).collect()
}

/// The plain values of bytes, without their marks.
pub fn values(bytes: &[u8]) -> Vec<u8> {
    bytes.iter().map(|byte| byte % 2).collect()
}
