//! Before anything is timed, every peer has to give what the library gives.

use crate::accepted::accepted;
use crate::call::Call;
use crate::cases::Bytes;
use crate::generate::image;
use crate::libraries::{left, takes};
use crate::mix::MIXES;
use crate::peer::Peer;
use crate::peers::PEERS;
use crate::random::Random;
use crate::sizing::{figures, Figures};
use tracker::kinds::INVERTED;
use tracker::{ffi, operand_place, MOST_CYCLES};

/// How many small netlists are tried.
pub const SMALL: usize = 600;

/// Bytes that no register has, and bytes of a row that no input has.
const NO_BYTES: [u8; 4] = [4, 6, 128, 255];

/// Compares the peers with the library on small netlists, with few cycles, and with
/// calls that are turned back.
pub fn assert_agree_on_small(peers: &[Peer]) {
    for seed in 0..SMALL {
        let (bytes, k) = small(seed);
        assert_agree(&bytes, k, peers);
        assert_refusals_agree(peers, &NO_BYTES, &bytes, k, seed as u64);
    }
}

/// A small netlist, and a number of cycles for which it has rows.
pub fn small(seed: usize) -> (Bytes, usize) {
    let mix = MIXES[seed % MIXES.len()];
    let (n, k) = (1 + seed % 97, seed % 11);
    let image = image(mix, n, seed as u64, seed % 2 == 0);
    (Bytes::with_image(image, k, seed as u64), k)
}

/// Compares the peers that take the image with the library's run.
pub fn assert_agree(bytes: &Bytes, k: usize, peers: &[Peer]) {
    assert_agree_with(PEERS[0], bytes, k, peers);
}

/// Runs the library and the peers that take the image for k cycles and compares
/// the answer, all outputs and the state left. Buffers start with other bytes on
/// each side, so that what a peer leaves out is seen.
pub fn assert_agree_with(library: Peer, bytes: &Bytes, k: usize, peers: &[Peer]) {
    let mut state = bytes.start.clone();
    let mut outputs = bytes.outputs(k);
    outputs.fill(0xaa);
    let answer = bytes.run(library, k, &mut state, &mut outputs);
    assert!(answer >> 32 == 0, "the library turned the run back");
    for peer in peers.iter().filter(|peer| takes(peer.name, &bytes.image)) {
        let mut peer_state = bytes.start.clone();
        let mut peer_outputs = bytes.outputs(k);
        peer_outputs.fill(0x55);
        let peer_answer = bytes.run(*peer, k, &mut peer_state, &mut peer_outputs);
        assert_eq!(peer_answer, answer, "first flow of {}", peer.name);
        let registers = bytes.sizes.registers;
        let states = [&peer_state, &state].map(|state| left(peer.name, registers, state));
        assert!(states[0] == states[1], "state of {}", peer.name);
        assert!(peer_outputs == outputs, "outputs of {}", peer.name);
    }
}

/// Compares the answers to calls with bad bytes, in the state and its count or in the
/// rows, with buffers that are too long, and with too many cycles. The first of the
/// peers is the library. A build that takes other states or images is left out.
pub fn assert_refusals_agree(peers: &[Peer], bad: &[u8], bytes: &Bytes, k: usize, seed: u64) {
    let takes_all = |peer: &&Peer| {
        let left = left(peer.name, bytes.sizes.registers, &bytes.start);
        takes(peer.name, &bytes.image) && left == bytes.start
    };
    let mut random = Random::new(seed);
    for _ in 0..4 {
        let mut state = bytes.start.clone();
        let mut rows = bytes.rows.clone();
        let mut outputs = bytes.outputs(k);
        let cycles = [k, MOST_CYCLES + 1][usize::from(random.chance(10))];
        for buffer in [&mut state, &mut rows] {
            if random.chance(50) && !buffer.is_empty() {
                let place = random.below(buffer.len());
                buffer[place] = bad[random.below(bad.len())];
            }
        }
        for buffer in [&mut state, &mut rows, &mut outputs] {
            buffer.extend(random.chance(20).then_some(0));
        }
        let answer = |peer: &Peer| answer(*peer, bytes, cycles, &state, &rows, outputs.len());
        let expected = answer(&peers[0]);
        let others = peers.iter().filter(takes_all);
        assert!(others.map(answer).all(|answer| answer == expected));
    }
}

/// The answer to a call on copies of what it writes.
fn answer(peer: Peer, bytes: &Bytes, k: usize, state: &[u8], rows: &[u8], outputs: usize) -> u64 {
    (peer.run)(Call {
        image: &bytes.image,
        k,
        state: &mut state.to_vec(),
        rows,
        outputs: &mut vec![0; outputs],
    })
}

/// Compares the peer of the doubled size with the library, on netlists of which
/// some are too large to be doubled, and on images that are cut short or have
/// another number at an operand. All peers check an image as this one does.
pub fn assert_sizes_agree() {
    for seed in 0..SMALL {
        let mix = MIXES[seed % MIXES.len()];
        let image = image(mix, 1 + seed * 5, seed as u64, true);
        let cut = &image[..image.len() - seed % 9];
        assert_size_agrees(&image);
        assert_size_agrees(cut);
        assert_size_agrees(&changed(&image, seed as u64));
    }
}

/// An image with a random number at a random operand, with or without the top bit.
fn changed(image: &[u8], seed: u64) -> Vec<u8> {
    let mut random = Random::new(seed);
    let n = accepted(image).sizes().nets;
    let place = operand_place(n, random.below(n), random.below(3));
    let limit = if random.chance(50) { 4 } else { n + 4 };
    let number = random.below(limit) as u16 + INVERTED * random.below(2) as u16;
    let mut image = image.to_vec();
    image[place..place + 2].copy_from_slice(&number.to_le_bytes());
    image
}

/// Compares the figures of the doubled netlist that the library and the peer give.
pub fn assert_size_agrees(image: &[u8]) {
    assert_eq!(figures(image), library_figures(image), "doubled size");
}

/// The figures that the library gives, or its refusal.
fn library_figures(image: &[u8]) -> Result<Figures, u64> {
    let number = |answer: u64| match answer >> 32 {
        0 => Ok(answer as usize),
        _ => Err(answer),
    };
    let nets = number(ffi::doubled_size(image))?;
    let mut kinds = [0; 9];
    for (kind, nets) in kinds.iter_mut().enumerate() {
        *nets = number(ffi::doubled_kind(image, kind))?;
    }
    Ok(Figures { nets, kinds })
}
