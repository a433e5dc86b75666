//! What a program prints against what the reference prints.

use crate::programs::program::{Pieces, Program};

/// What a program says on standard error of a net.bin that is missing.
const MISSING: &str = "net.bin: No such file or directory\n";

impl Program {
    /// What the reference prints. A missing file counts as 0 bytes.
    pub fn expected(&self, image: Option<&[u8]>, rows: &[u8]) -> Vec<u8> {
        (self.reference)(image.unwrap_or(&[]), rows)
    }

    /// What is wrong with the program's lines, with what it says on standard error or
    /// with its exit status, if anything is. It has nothing to say but that net.bin
    /// is missing. After a normal end the status is 0; after a refusal it is any, but
    /// no signal.
    pub fn difference(&self, image: Option<&[u8]>, rows: &[u8], pieces: Pieces) -> Option<String> {
        let expected = self.expected(image, rows);
        let ended = self.run(image, rows, pieces);
        if ended.lines != expected {
            return Some(first_differing(&ended.lines, &expected));
        }
        let to_say = image.map_or(MISSING, |_| "");
        if ended.said != to_say {
            let said = ended.said;
            return Some(format!("standard error has {said:?}, expected {to_say:?}"));
        }
        let last = expected.split(|byte| *byte == b'\n').rev().nth(1);
        let is_refused = last.map_or(false, |line| line.starts_with(b"refused "));
        match ended.status.code() {
            Some(0) => None,
            Some(_) if is_refused => None,
            _ => Some(format!("the program ended with {}", ended.status)),
        }
    }

    /// Asks for the reference's lines.
    pub fn same(&self, image: Option<&[u8]>, rows: &[u8], pieces: Pieces) {
        if let Some(text) = self.difference(image, rows, pieces) {
            panic!("{} row bytes in {pieces:?}: {text}", rows.len());
        }
    }
}

/// The first differing byte of two texts, with what stands around it.
pub fn first_differing(are: &[u8], expected: &[u8]) -> String {
    let equal = are.iter().zip(expected).take_while(|(a, b)| a == b).count();
    let around = |text: &[u8]| {
        let part = &text[equal.saturating_sub(40)..text.len().min(equal + 40)];
        String::from_utf8_lossy(part).into_owned()
    };
    format!(
        "the lines differ at byte {equal}: {} bytes with {:?}, expected {} with {:?}",
        are.len(),
        around(are),
        expected.len(),
        around(expected)
    )
}
