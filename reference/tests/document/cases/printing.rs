//! What the program `cases` prints of an answer and of lent bytes.

use reference::{DoubledSize, FirstFlow, Refusal, Verdict};
use std::fmt::Write;

fn refusal(page: &mut String, r: Refusal) {
    write!(page, ": refused {} {}", r.number, r.place).unwrap();
}

fn verdict(page: &mut String, verdict: Verdict) {
    match verdict {
        Verdict::Clear => page.push_str(": clear"),
        Verdict::Flow(net) => write!(page, ": flow {net}").unwrap(),
    }
}

pub fn outcome(page: &mut String, answer: Result<(), Refusal>) {
    match answer {
        Ok(()) => page.push_str(": accepted"),
        Err(r) => refusal(page, r),
    }
}

pub fn step_answer(page: &mut String, answer: Result<Verdict, Refusal>) {
    match answer {
        Ok(v) => verdict(page, v),
        Err(r) => refusal(page, r),
    }
}

pub fn run_answer(page: &mut String, answer: Result<FirstFlow, Refusal>) {
    match answer {
        Ok(first) => {
            verdict(page, first.verdict);
            write!(page, ", cycle {}", first.cycle).unwrap();
        }
        Err(r) => refusal(page, r),
    }
}

/// The nets, the bytes and the nets of each kind of a doubled netlist. All of
/// them are 0 where the call was refused.
pub fn figures(page: &mut String, answer: Result<DoubledSize, Refusal>) {
    outcome(page, answer.map(|_| ()));
    let size = answer.unwrap_or(DoubledSize {
        nets: 0,
        bytes: 0,
        kinds: [0; 9],
    });
    write!(page, ", nets {}, bytes {}, kinds", size.nets, size.bytes).unwrap();
    for count in size.kinds {
        write!(page, " {count}").unwrap();
    }
}

fn all_bytes(page: &mut String, bytes: &[u8]) {
    for byte in bytes {
        write!(page, " {byte}").unwrap();
    }
}

/// Lent bytes; of more than 64 the first four and the last four.
pub fn lent(page: &mut String, name: &str, bytes: &[u8]) {
    page.push_str(name);
    if bytes.len() <= 64 {
        all_bytes(page, bytes);
    } else {
        all_bytes(page, &bytes[..4]);
        page.push_str(" ..");
        all_bytes(page, &bytes[bytes.len() - 4..]);
    }
}

/// The sizes of an image, and the kinds and the operands of its nets from net
/// `from` on.
pub fn image(page: &mut String, image: &[u8], from: usize) {
    let n = (image.len() - 8) / 7;
    page.push_str(", sizes");
    all_bytes(page, &image[..8]);
    page.push_str(", kinds");
    all_bytes(page, &image[8 + from..8 + n]);
    for net in image[8 + n..].chunks(6).skip(from) {
        page.push_str("\n ");
        all_bytes(page, net);
    }
}

/// Whether a buffer of bytes 9 stayed as it was.
pub fn whether_changed(page: &mut String, buffer: &[u8]) {
    if buffer.iter().all(|byte| *byte == 9) {
        page.push_str(", buffer as it was");
    } else {
        page.push_str(", buffer changed");
    }
}

/// The text of pages, with a bar for the end of each line.
pub fn page_text(page: &mut String, buffer: &[u8]) {
    page.push_str(", page ");
    page.push_str(&std::str::from_utf8(buffer).unwrap().replace('\n', "|"));
}
