//! The calls by which cycles are taken: runs, steps that show every net, static runs, and runs that are written as pages.

use crate::design::Design;
use crate::failure::{Failure, Outcome};
use crate::judging::{refused, Method, Piece};
use crate::wave::Wave;
use std::io::Write;
use tracker::{marked_registers, page, page_length, power_up, run, state_length, static_power_up, static_run, step};
use tracker::{FirstFlow, Image, Refusal, Verdict};

/// Runs.
pub struct ByRuns;

/// Static runs.
pub struct ByStaticRuns;

/// Steps, whose net bytes go to a file for GTKWave.
pub struct BySteps<W: Write> {
    pub wave: Wave<W>,
    pub file: String,
    pub outputs: Vec<usize>,
    pub nets: Vec<u8>,
}

/// Runs, whose outputs go to pages.
pub struct ByPages<W: Write> {
    pub out: W,
}

/// The state after power-up, and how many registers it marks.
fn powered(design: &Design) -> Result<(Vec<u8>, usize), Refusal> {
    let mut state = vec![0; state_length(design.sizes.registers)];
    power_up(&design.image, &mut state)?;
    let marked = marked_registers(&state).unwrap_or_default();
    Ok((state, marked))
}

impl Method for ByRuns {
    fn start(&self, design: &Design) -> Result<(Vec<u8>, usize), Refusal> {
        powered(design)
    }

    fn take(&mut self, piece: &mut Piece) -> Outcome<FirstFlow> {
        run(piece.image, piece.k, piece.state, piece.rows, piece.outputs).map_err(refused)
    }
}

impl Method for ByStaticRuns {
    fn start(&self, design: &Design) -> Result<(Vec<u8>, usize), Refusal> {
        let mut state = vec![0; design.sizes.registers];
        static_power_up(&design.image, &mut state)?;
        Ok((state, powered(design)?.1))
    }

    fn take(&mut self, piece: &mut Piece) -> Outcome<FirstFlow> {
        static_run(piece.image, piece.k, piece.state, piece.rows, piece.outputs).map_err(refused)
    }
}

impl<W: Write> Method for BySteps<W> {
    fn start(&self, design: &Design) -> Result<(Vec<u8>, usize), Refusal> {
        powered(design)
    }

    fn take(&mut self, piece: &mut Piece) -> Outcome<FirstFlow> {
        let (inputs, outputs) = (piece.rows.len() / piece.k, piece.outputs.len() / piece.k);
        let mut first = FirstFlow { cycle: piece.k, verdict: Verdict::Clear };
        for cycle in 0..piece.k {
            let row = &piece.rows[cycle * inputs..][..inputs];
            let verdict = step(piece.image, piece.state, row, &mut self.nets).map_err(refused)?;
            for (shown, &net) in piece.outputs[cycle * outputs..][..outputs].iter_mut().zip(&self.outputs) {
                *shown = self.nets[net];
            }
            if first.verdict.is_clear() && !verdict.is_clear() {
                first = FirstFlow { cycle, verdict };
            }
            let written = self.wave.cycle(&self.nets, !verdict.is_clear());
            written.map_err(|error| Failure::writing(&self.file, &error))?;
        }
        Ok(first)
    }
}

impl<W: Write> Method for ByPages<W> {
    fn start(&self, design: &Design) -> Result<(Vec<u8>, usize), Refusal> {
        powered(design)
    }

    fn take(&mut self, piece: &mut Piece) -> Outcome<FirstFlow> {
        let answer = ByRuns.take(piece)?;
        let outputs = Image::of(piece.image).map_or(0, |image| image.sizes().outputs);
        let mut text = vec![0; page_length(piece.k, outputs)];
        page(piece.image, piece.k, piece.outputs, &mut text).map_err(refused)?;
        if piece.first > 0 {
            number_pages(&mut text, outputs, piece.first);
        }
        self.out.write_all(&text).map_err(|error| Failure::writing("standard output", &error))?;
        Ok(answer)
    }
}

/// The characters of a line of a page, and its newline.
const LINE: usize = 71;

/// Puts other first cycles into the headings of pages: the library counts from the first cycle of a call.
fn number_pages(text: &mut [u8], outputs: usize, first: u64) {
    for (at, page) in text.chunks_mut(LINE * (1 + outputs)).enumerate() {
        let heading = format!("cycle {:<64}", first + 64 * at as u64);
        page[..LINE - 1].copy_from_slice(heading.as_bytes());
    }
}
