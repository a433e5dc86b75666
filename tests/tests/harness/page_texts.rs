//! Stand-ins that write wrong pages. Their answers are right.

use crate::parts::{bytes, bytes_mut, read};
use tests::listed::net_of;
use tests::{Calls, LIBRARY};
use tracker::kinds::OUT;
use tracker::Image;

/// How pages are written.
struct Style {
    /// How many cycles a page takes. Signs behind column 70 are left out.
    cycles: usize,
    /// What a heading shows behind the word, by the first cycle and the page's number.
    heading: fn(usize, usize) -> String,
    /// Columns 1 to 5 of an output's line, by its net and its place among the outputs.
    label: fn(Image, usize, usize) -> String,
    /// Where the byte of a cycle and an output stands in a record of k cycles and so
    /// many outputs.
    index: fn(usize, usize, [usize; 2]) -> usize,
    sign: fn(u8) -> u8,
    /// Unused columns are blank. Otherwise they stay as they are.
    fills: bool,
}

const RIGHT: Style = Style {
    cycles: 64,
    heading: |first, _| first.to_string(),
    label: |_, net, _| format!("{net:>5}"),
    index: |cycle, output, [_, outputs]| cycle * outputs + output,
    sign: |byte| b"01lh"[usize::from(byte)],
    fills: true,
};

const STYLES: [Style; 10] = [
    Style {
        cycles: 65,
        ..RIGHT
    },
    Style {
        label: |_, net, _| format!("{net:<5}"),
        ..RIGHT
    },
    Style {
        heading: |_, page| page.to_string(),
        ..RIGHT
    },
    Style {
        sign: |byte| b"01hl"[usize::from(byte)],
        ..RIGHT
    },
    Style {
        fills: false,
        ..RIGHT
    },
    Style {
        label: |_, _, place| format!("{place:>5}"),
        ..RIGHT
    },
    Style {
        label: |image, net, _| format!("{:>5}", net_of(image.operand(net, 0))),
        ..RIGHT
    },
    Style {
        index: |cycle, output, [k, _]| output * k + cycle,
        ..RIGHT
    },
    Style {
        sign: |byte| b"0123"[usize::from(byte)],
        ..RIGHT
    },
    Style {
        heading: |first, _| format!("{first:>64}"),
        ..RIGHT
    },
];

/// Takes 65 cycles for a page.
pub const CYCLES_65: Calls = styled::<0>();

/// Sets net numbers left.
pub const NUMBER_LEFT: Calls = styled::<1>();

/// Numbers the pages where it should give their first cycles.
pub const PAGE_NUMBERS: Calls = styled::<2>();

/// Writes h for an untrusted 0 and l for an untrusted 1.
pub const EXCHANGED: Calls = styled::<3>();

/// Leaves unused columns as they are.
pub const NOT_FILLED: Calls = styled::<4>();

/// Gives the place of an output among the outputs for its net number.
pub const PLACE_OF_OUTPUT: Calls = styled::<5>();

/// Gives the net that an OUT reads for its own number.
pub const NET_OF_PIN: Calls = styled::<6>();

/// Reads the record output after output.
pub const BY_OUTPUTS: Calls = styled::<7>();

/// Writes the bytes as digits.
pub const DIGITS: Calls = styled::<8>();

/// Sets the first cycle number right.
pub const CYCLE_RIGHT: Calls = styled::<9>();

const fn styled<const INDEX: usize>() -> Calls {
    Calls {
        page: page::<INDEX>,
        ..LIBRARY
    }
}

#[rustfmt::skip]
unsafe extern "C" fn page<const INDEX: usize>(
    image: *const u8, il: usize, k: usize, record: *const u8, rl: usize,
    page: *mut u8, pl: usize,
) -> u64 {
    let before = bytes(page, pl).to_vec();
    let answer = (LIBRARY.page)(image, il, k, record, rl, page, pl);
    if answer == 0 {
        let text = bytes_mut(page, pl);
        text.copy_from_slice(&before);
        write(&STYLES[INDEX], read(image, il), k, bytes(record, rl), text);
    }
    answer
}

/// Writes the pages of a record into a buffer, and leaves what is not written as it is.
fn write(style: &Style, image: Image, k: usize, record: &[u8], text: &mut [u8]) {
    let kinds = image.kinds().iter().enumerate();
    let outs = kinds.filter(|(_, kind)| **kind == OUT);
    let outs: Vec<usize> = outs.map(|(net, _)| net).collect();
    let mut lines = text.chunks_mut(71);
    for (number, first) in (0..k).step_by(style.cycles).enumerate() {
        let heading = (style.heading)(first, number);
        write_line(style, lines.next(), "cycle", heading.as_bytes());
        for (place, net) in outs.iter().enumerate() {
            let sizes = [k, outs.len()];
            let cycles = first..k.min(first + style.cycles);
            let signs = cycles.map(|cycle| {
                let index = (style.index)(cycle, place, sizes);
                (style.sign)(record[index])
            });
            let label = (style.label)(image, *net, place);
            write_line(style, lines.next(), &label, &signs.collect::<Vec<u8>>());
        }
    }
}

/// Writes one line, where there is one.
fn write_line(style: &Style, line: Option<&mut [u8]>, label: &str, rest: &[u8]) {
    let line = line.expect("as many lines as the right pages have");
    line[..5].copy_from_slice(label.as_bytes());
    line[5] = b' ';
    if style.fills {
        line[6..70].fill(b' ');
    }
    let used = rest.len().min(64);
    line[6..6 + used].copy_from_slice(&rest[..used]);
    line[70] = b'\n';
}
