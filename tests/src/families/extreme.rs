//! Runs of 4,096 cycles on netlists of 8,192 nets, with the longest rows,
//! outputs and states that there can be, and a bad byte at their very ends; and the
//! pages of as many cycles.

use crate::call::Call;
use crate::case::Case;
use crate::codes;
use crate::counts::Counts;
use crate::drawing;
use crate::failure::Outcome;
use crate::netlists;
use crate::pages;
use crate::states;
use tracker::kinds::{CONST, INPUT, INVERTED, NOT, OUT, REG};
use tracker::{encode, Net, MOST_CYCLES, MOST_NETS};

/// The number behind the last net of the largest netlist.
const END: u16 = MOST_NETS as u16;

pub const CASES: u64 = 9;

/// Cases without gates and inverted pins, which are run statically too. The reference
/// is slow at gates and inverted pins on codes.
const STATIC: [u64; 3] = [0, 2, 6];

pub fn run(case: &mut Case) -> Outcome {
    let nets = netlist(case);
    let counts = Counts::of(&nets);
    let image = encode(&nets);
    case.compare_figures(&image)?;
    let state = states::draw(&mut case.random, counts.registers);
    let run = drawing::run(&mut case.random, &counts, MOST_CYCLES, &state);
    with_bad_ends(case, &image, &counts, run, 4)?;
    if STATIC.contains(&(case.seed % CASES)) {
        let state = codes::draw(&mut case.random, counts.registers);
        let run = drawing::static_run(&mut case.random, &counts, MOST_CYCLES, &state);
        with_bad_ends(case, &image, &counts, run, 5)?;
    }
    longest_pages(case, &image, &counts)
}

/// Writes the pages of 4,096 cycles, and again with a bad byte at the end of the
/// record, and then with one byte less.
fn longest_pages(case: &mut Case, image: &[u8], counts: &Counts) -> Outcome {
    let mut page = pages::page(&mut case.random, counts, MOST_CYCLES);
    case.compare(image, &mut page)?;
    if let Some(byte) = page.rows.last_mut() {
        *byte = 4;
        case.compare(image, &mut page)?;
        page.rows.pop();
        case.compare(image, &mut page)?;
        page.rows.push(0);
    }
    page.filled.pop();
    case.compare(image, &mut page)?;
    Ok(())
}

/// Makes a run, and makes it again with a bad byte at the end of its rows, then with
/// 255 at the end of its count, if it has one, and once more with 255 in its last
/// register.
fn with_bad_ends(case: &mut Case, image: &[u8], counts: &Counts, run: Call, bad: u8) -> Outcome {
    let mut run = run;
    case.compare(image, &mut run)?;
    if let Some(byte) = run.rows.last_mut() {
        *byte = bad;
        case.compare(image, &mut run)?;
    }
    if run.name.has_count() {
        run.state[counts.registers + 1] = 255;
        case.compare(image, &mut run)?;
    }
    if let Some(byte) = run.state[..counts.registers].last_mut() {
        *byte = 255;
        case.compare(image, &mut run)?;
    }
    Ok(())
}

/// The netlist of a case.
fn netlist(case: &mut Case) -> Vec<Net> {
    match case.seed % CASES {
        // 8,192 inputs: rows of 33,554,432 bytes in all.
        0 => vec![Net::new(INPUT, 0, 0, 0); MOST_NETS],
        // One input and 8,191 outputs of it, of which the last is protected.
        1 => {
            let mut nets = vec![Net::new(OUT, 0, 0, 0); MOST_NETS];
            nets[0] = Net::new(INPUT, 0, 0, 0);
            nets[MOST_NETS - 1] = Net::new(OUT, 0, 1, 0);
            nets
        }
        // A ring of registers, whose pins are plain or inverted.
        2 => ring(0),
        3 => ring(INVERTED),
        // Neither inputs nor registers nor outputs.
        4 => vec![Net::new(CONST, 1, 0, 0); MOST_NETS],
        // A chain of NOTs behind an input, and a protected output at its end.
        5 => {
            let mut nets = vec![Net::new(INPUT, 0, 0, 0)];
            nets.extend((1..END - 1).map(|number| Net::new(NOT, number - 1, 0, 0)));
            nets.push(Net::new(OUT, END - 2, 1, 0));
            nets
        }
        // A chain of registers behind an input. What is marked there reaches
        // the protected output after 3,000 cycles.
        6 => {
            let mut nets = vec![Net::new(INPUT, 0, 0, 0)];
            nets.extend((1..3001).map(|number| Net::new(REG, number - 1, 0, 0)));
            nets.push(Net::new(OUT, 3000, 1, 0));
            nets
        }
        _ => netlists::of_size(&mut case.random, MOST_NETS),
    }
}

/// A ring of 8,192 registers. Each takes the byte of the next one, as its pin with
/// this top bit reads it.
fn ring(top: u16) -> Vec<Net> {
    let next = |number| Net::new(REG, (number + 1) % END + top, number % 3, 0);
    (0..END).map(next).collect()
}
