//! Before anything is timed, every peer has to write the pages that the library
//! writes, and to turn back where it does.

use super::cases::Bytes;
use super::{Lent, Writer, WRITERS};
use crate::accepted::accepted;
use crate::agree::SMALL;
use crate::generate::image;
use crate::mix::MIXES;
use crate::random::Random;
use tracker::MOST_CYCLES;

/// Compares the peers with the library on small netlists of all mixes, with up to
/// 199 cycles, and on calls that are turned back.
pub fn assert_agree_on_small() {
    for seed in 0..SMALL {
        let mix = MIXES[seed % MIXES.len()];
        let (n, k) = (1 + seed * 7 % 1103, seed % 200);
        let image = image(mix, n, seed as u64, true);
        let outputs = accepted(&image).sizes().outputs;
        let bytes = Bytes::with_image(image, outputs, k, seed as u64);
        assert_agree(&bytes);
        assert_refusals_agree(&bytes, seed as u64);
    }
}

/// Compares the pages of all writers. Buffers start with other bytes on each side, so
/// that what a peer leaves out is seen.
pub fn assert_agree(bytes: &Bytes) {
    let mut page = bytes.page(0xaa);
    assert_eq!(
        bytes.write(WRITERS[0], &mut page),
        0,
        "the library's answer"
    );
    for writer in &WRITERS[1..] {
        let mut peer_page = bytes.page(0x55);
        let answer = bytes.write(*writer, &mut peer_page);
        assert_eq!(answer, 0, "the answer of {}", writer.name);
        assert!(peer_page == page, "the pages of {}", writer.name);
    }
}

/// Compares the answers to calls with a byte above 3, with buffers and an image of
/// another length, and with too many cycles.
fn assert_refusals_agree(bytes: &Bytes, seed: u64) {
    let mut random = Random::new(seed);
    for _ in 0..4 {
        let mut image = bytes.image.clone();
        let mut record = bytes.record.clone();
        let mut page = bytes.page(0);
        let k = [bytes.k, MOST_CYCLES + 1][usize::from(random.chance(10))];
        if random.chance(30) && !record.is_empty() {
            let place = random.below(record.len());
            record[place] = [4, 6, 255][random.below(3)];
        }
        for (buffer, percent) in [(&mut image, 5), (&mut record, 20), (&mut page, 40)] {
            buffer.extend(random.chance(percent).then_some(0));
        }
        let answer = |writer: &Writer| answer(*writer, &image, k, &record, page.len());
        let expected = answer(&WRITERS[0]);
        assert!(WRITERS.iter().all(|writer| answer(writer) == expected));
    }
}

/// The answer to a call with a page buffer of some length.
fn answer(writer: Writer, image: &[u8], k: usize, record: &[u8], length: usize) -> u64 {
    (writer.page)(Lent {
        image,
        k,
        record,
        page: &mut vec![0; length],
    })
}
