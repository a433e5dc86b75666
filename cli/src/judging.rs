//! A judgement: all cycles of the stimuli, in pieces that the library takes one after the other.

use crate::design::Design;
use crate::failure::{fail, Failure, Outcome};
use crate::progress::Progress;
use crate::stimuli::Stimuli;
use tracker::codes::is_marked;
use tracker::{protect, FirstFlow, Refusal, Verdict, MOST_CYCLES};

/// The cycles that are taken by one call.
pub struct Piece<'a> {
    pub image: &'a [u8],
    /// The number of the first cycle.
    pub first: u64,
    /// How many there are.
    pub k: usize,
    pub state: &'a mut [u8],
    pub rows: &'a [u8],
    pub outputs: &'a mut [u8],
}

/// The calls by which cycles are taken.
pub trait Method {
    /// The state at the start, and how many registers have no start of their own.
    fn start(&self, design: &Design) -> Result<(Vec<u8>, usize), Refusal>;

    /// Takes a piece: fills its outputs, and leaves its last state. Answers with the first flow, its cycle counted within the piece.
    fn take(&mut self, piece: &mut Piece) -> Outcome<FirstFlow>;
}

/// The first flow: its cycle and its output's net.
#[derive(Debug, Clone, Copy, PartialEq, Eq)]
pub struct Flow {
    pub cycle: u64,
    pub net: usize,
}

/// What came out.
#[derive(Debug)]
pub struct Judgement {
    pub cycles: u64,
    pub flow: Option<Flow>,
    /// Every protected output that was ever marked, with its first such cycle, in the order of these cycles.
    pub marked: Vec<Flow>,
    pub registers_without_start: usize,
}

/// The bytes that the rows or the outputs of a piece may have together, about.
const PIECE: usize = 1 << 20;

/// How many cycles a piece has at the most: a multiple of 64, so that pages are whole.
fn piece_cycles(design: &Design) -> usize {
    let widest = design.sizes.inputs.max(design.sizes.outputs).max(1);
    (PIECE / widest / 64 * 64).clamp(64, MOST_CYCLES)
}

/// A judgement on its way.
struct Judging<'a> {
    design: &'a Design,
    /// The image, in which the outputs are protected that are so in the cycles of the piece.
    image: Vec<u8>,
    protected: Vec<bool>,
    state: Vec<u8>,
    first_marked: Vec<Option<u64>>,
    any_protected: bool,
    flow: Option<Flow>,
}

/// Judges a design on stimuli.
pub fn judge(design: &Design, stimuli: &mut Stimuli, method: &mut dyn Method) -> Outcome<Judgement> {
    let (state, registers_without_start) = method.start(design).map_err(refused)?;
    let mut judging = Judging {
        design,
        image: design.image.clone(),
        protected: vec![false; design.outputs.len()],
        state,
        first_marked: vec![None; design.outputs.len()],
        any_protected: false,
        flow: None,
    };
    let progress = Progress::new(stimuli.length);
    let mut rows = Vec::new();
    loop {
        rows.clear();
        let first = stimuli.cycle();
        let k = judging.gather(stimuli, &mut rows)?;
        if k == 0 {
            break;
        }
        judging.take(method, first, k, &rows)?;
        progress.at(stimuli.position(), stimuli.cycle());
    }
    progress.done();
    if stimuli.cycle() == 0 {
        fail!("there is no row, so that nothing was judged");
    }
    if !judging.any_protected {
        fail!("no output is protected in any of these cycles, so that nothing was judged; say in the policy which are");
    }
    if !stimuli.any_marked && registers_without_start == 0 {
        fail!("no input is foreign in any of these cycles, so that nothing was judged; say in the policy which are");
    }
    Ok(Judgement {
        cycles: stimuli.cycle(),
        flow: judging.flow,
        marked: judging.marked(),
        registers_without_start,
    })
}

/// A refusal of the library for what this command lent it.
pub fn refused(refusal: Refusal) -> Failure {
    Failure::new(format!("the library turned back: {refusal}"))
}

impl Judging<'_> {
    /// Takes the rows of the next piece, in all of whose cycles the same outputs are protected. Answers with their number.
    fn gather(&mut self, stimuli: &mut Stimuli, rows: &mut Vec<u8>) -> Outcome<usize> {
        let first = stimuli.cycle();
        let mut most = piece_cycles(self.design);
        if let Some(same) = stimuli.policy.same_protection(first) {
            most = most.min(usize::try_from(same).unwrap_or(most));
        }
        for (output, &net) in self.design.outputs.iter().enumerate() {
            let protected = self.design.is_protected(output) || stimuli.policy.is_protected(output, first);
            if protected != self.protected[output] || first == 0 {
                self.protected[output] = protected;
                protect(&mut self.image, net, protected);
            }
        }
        let mut k = 0;
        while k < most && stimuli.next_row(rows)? {
            k += 1;
        }
        Ok(k)
    }

    /// Takes one piece, and looks through its outputs.
    fn take(&mut self, method: &mut dyn Method, first: u64, k: usize, rows: &[u8]) -> Outcome<()> {
        let mut outputs = vec![0; k * self.design.outputs.len()];
        let answer = method.take(&mut Piece {
            image: &self.image,
            first,
            k,
            state: &mut self.state,
            rows,
            outputs: &mut outputs,
        })?;
        self.any_protected |= self.protected.contains(&true);
        let flow = match answer.verdict {
            Verdict::Clear => None,
            Verdict::Flow { net } => Some(Flow { cycle: first + answer.cycle as u64, net }),
        };
        if self.look_through(first, &outputs) != flow {
            fail!("the library's verdict is not the one that its output bytes show; nothing is to be believed");
        }
        self.flow = self.flow.or(flow);
        Ok(())
    }

    /// Notes each protected output that is marked for the first time, and gives the first flow that the output bytes show.
    fn look_through(&mut self, first: u64, outputs: &[u8]) -> Option<Flow> {
        let mut flow = None;
        let width = self.design.outputs.len();
        if width == 0 {
            return None;
        }
        for (cycle, bytes) in (first..).zip(outputs.chunks_exact(width)) {
            for (output, &byte) in bytes.iter().enumerate() {
                if self.protected[output] && is_marked(byte) {
                    let net = self.design.outputs[output];
                    flow = flow.or(Some(Flow { cycle, net }));
                    self.first_marked[output] = self.first_marked[output].or(Some(cycle));
                }
            }
        }
        flow
    }

    /// Every protected output that was ever marked.
    fn marked(&self) -> Vec<Flow> {
        let nets = self.design.outputs.iter().zip(&self.first_marked);
        let mut marked: Vec<Flow> = nets.filter_map(|(&net, cycle)| cycle.map(|cycle| Flow { cycle, net })).collect();
        marked.sort_by_key(|flow| (flow.cycle, flow.net));
        marked
    }
}
