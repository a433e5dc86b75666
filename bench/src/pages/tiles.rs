//! Peer "tiles": tuned, in safe Rust. A tile is the signs of up to 64 cycles and 64
//! outputs. It is made a cycle at a time, so that each cache line of the record is
//! read once, and without a table, so that many bytes become signs at once. Then it
//! is turned, eight cycles of eight outputs at a time, in words of eight bytes. The
//! outputs beside the last word are written byte by byte.

use std::array::from_fn;

use super::layout::{outs, BEFORE, CYCLES, LINE, SIGNS};
use super::Lent;
use tracker::Sizes;

/// The bytes of a word, and the outputs and words of a tile.
const WORD: usize = 8;
const WIDTH: usize = 64;
const WORDS: usize = WIDTH / WORD;

/// A tile: a row for each cycle.
type Tile = [[u8; WIDTH]; CYCLES];

/// What stands before the signs of a line.
type Label = [u8; BEFORE];

/// The pages of an accepted call.
pub fn write(lent: Lent, z: Sizes) {
    let labels: Vec<Label> = outs(lent.image).into_iter().map(label).collect();
    let pages = lent.page.chunks_exact_mut((1 + z.outputs) * LINE);
    for (number, page) in pages.enumerate() {
        let first = number * CYCLES;
        let n = CYCLES.min(lent.k - first);
        let record = &lent.record[first * z.outputs..][..n * z.outputs];
        let (heading, lines) = page.split_at_mut(LINE);
        let digits = first.to_string();
        heading[BEFORE..][..digits.len()].copy_from_slice(digits.as_bytes());
        finish(heading, b"cycle ", digits.len());
        let (whole, rest) = labels.split_at(z.outputs / WORD * WORD);
        let (whole_lines, rest_lines) = lines.split_at_mut(whole.len() * LINE);
        put_tiles(record, n, whole_lines, whole, z.outputs);
        for (j, (line, label)) in rest_lines.chunks_exact_mut(LINE).zip(rest).enumerate() {
            let rows = record.chunks_exact(z.outputs);
            for (sign, row) in line[BEFORE..].iter_mut().zip(rows) {
                *sign = sign_of(row[whole.len() + j]);
            }
            finish(line, label, n);
        }
    }
}

/// The number of a net set right in five columns, and a blank.
fn label(net: usize) -> Label {
    let mut label = [b' '; BEFORE];
    let mut rest = net;
    for place in label[..BEFORE - 1].iter_mut().rev() {
        *place = b'0' + (rest % 10) as u8;
        rest /= 10;
        if rest == 0 {
            break;
        }
    }
    label
}

/// A line that has its n signs or digits takes all else.
fn finish(line: &mut [u8], label: &Label, n: usize) {
    line[..BEFORE].copy_from_slice(label);
    line[BEFORE + n..LINE - 1].fill(b' ');
    line[LINE - 1] = b'\n';
}

/// The lines of outputs that fill whole words, on a page of n cycles.
fn put_tiles(record: &[u8], n: usize, lines: &mut [u8], labels: &[Label], outputs: usize) {
    let mut tile = [[0; WIDTH]; CYCLES];
    let tiles = lines.chunks_mut(WIDTH * LINE).zip(labels.chunks(WIDTH));
    for (number, (lines, labels)) in tiles.enumerate() {
        for (signs, bytes) in tile.iter_mut().zip(record.chunks_exact(outputs)) {
            let bytes = &bytes[number * WIDTH..][..labels.len()];
            for (sign, byte) in signs.iter_mut().zip(bytes) {
                *sign = sign_of(*byte);
            }
        }
        for (column, lines) in lines.chunks_exact_mut(WORD * LINE).enumerate() {
            put_column(&tile, column, n, lines.try_into().expect("eight lines"));
        }
        for (line, label) in lines.chunks_exact_mut(LINE).zip(labels) {
            finish(line, label, n);
        }
    }
}

/// A column of words, in eight lines. Up to seven more signs than n are written to
/// each.
fn put_column(tile: &Tile, column: usize, n: usize, lines: &mut [u8; WORD * LINE]) {
    let blocks = tile.chunks_exact(WORD).take(n.div_ceil(WORD));
    for (number, rows) in blocks.enumerate() {
        let words = turned(from_fn(|cycle| word(&rows[cycle], column % WORDS)));
        let place = BEFORE + number % WORDS * WORD;
        for (j, word) in words.into_iter().enumerate() {
            lines[j * LINE + place..][..WORD].copy_from_slice(&word.to_le_bytes());
        }
    }
}

/// A word of a row.
fn word(row: &[u8; WIDTH], number: usize) -> u64 {
    u64::from_le_bytes(from_fn(|place| row[number * WORD + place]))
}

/// The sign of a byte: the exclusive or of that of 0, of what the value and the mark
/// change in it, and of what they change only together.
fn sign_of(byte: u8) -> u8 {
    let [zero, one, low, high] = SIGNS;
    let all_bits = |bit: u8| 0u8.wrapping_sub(bit & 1);
    let (value, mark) = (all_bits(byte), all_bits(byte >> 1));
    let both = value & mark & (zero ^ one ^ low ^ high);
    zero ^ (value & (zero ^ one)) ^ (mark & (zero ^ low)) ^ both
}

/// For each turn of blocks: how far apart the two words of a block are, and the bytes
/// of the first one that stay.
const TURNS: [(usize, u64); 3] = [
    (4, 0x0000_0000_ffff_ffff),
    (2, 0x0000_ffff_0000_ffff),
    (1, 0x00ff_00ff_00ff_00ff),
];

/// Eight words turned: byte i of word j becomes byte j of word i.
fn turned(mut words: [u64; WORD]) -> [u64; WORD] {
    for (apart, stay) in TURNS {
        for i in (0..WORD).filter(|i| i & apart == 0) {
            let (above, below) = (words[i], words[i + apart]);
            let moved = ((above >> (8 * apart)) ^ below) & stay;
            words[i] = above ^ (moved << (8 * apart));
            words[i + apart] = below ^ moved;
        }
    }
    words
}
