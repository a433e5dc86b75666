//! Pages read back: what their lines show, where each column is as it has to be.

/// A page shows so many cycles, and the last page those that are left.
const CYCLES: usize = 64;

/// What pages show.
#[derive(Debug, PartialEq, Eq)]
pub struct Shown {
    pub pages: usize,
    /// The net numbers, as they stand on the first page.
    pub nets: Vec<usize>,
    /// The bytes of the signs, cycle after cycle.
    pub record: Vec<u8>,
}

/// Reads the pages of so many outputs, or says what is wrong with them. Each line has
/// 70 characters and a newline. The headings count the cycles, every page has the
/// same net numbers, and only the last page shows fewer than 64 cycles.
pub fn read_back(text: &[u8], outputs: usize) -> Result<Shown, String> {
    let lines = lines_of(text)?;
    if lines.len() % (1 + outputs) != 0 {
        return Err(format!("{} lines are no whole pages", lines.len()));
    }
    let pages = lines.len() / (1 + outputs);
    let (mut nets, mut record) = (Vec::new(), Vec::new());
    for (number, page) in lines.chunks(1 + outputs).enumerate() {
        let first = first_cycle(page[0])?;
        if first != CYCLES * number {
            return Err(format!("page {number} begins with cycle {first}"));
        }
        let (own_nets, own_record) = read_page(&page[1..])?;
        if number == 0 {
            nets = own_nets;
        } else if own_nets != nets {
            return Err(format!("page {number} has other net numbers"));
        }
        if number + 1 < pages && own_record.len() != CYCLES * outputs {
            return Err(format!("page {number} is not the last and not full"));
        }
        record.extend(own_record);
    }
    Ok(Shown {
        pages,
        nets,
        record,
    })
}

/// The lines, without their newlines.
fn lines_of(text: &[u8]) -> Result<Vec<&str>, String> {
    let mut lines = Vec::new();
    for (number, line) in text.chunks(71).enumerate() {
        match line {
            [line @ .., b'\n'] if line.len() == 70 && line.is_ascii() => {
                lines.push(std::str::from_utf8(line).expect("ASCII is text"));
            }
            _ => return Err(format!("line {number} is no 70 characters and a newline")),
        }
    }
    Ok(lines)
}

/// The number of the first cycle in a heading: columns 1 to 6 are fixed, and the number
/// begins in column 7.
fn first_cycle(line: &str) -> Result<usize, String> {
    let digits = line.strip_prefix("cycle ").map(without_blanks_behind);
    digits
        .and_then(number)
        .ok_or_else(|| format!("{line:?} is no heading"))
}

/// The net numbers and the bytes of one page, from the lines of its outputs. All lines
/// have equally many signs, at least one.
fn read_page(lines: &[&str]) -> Result<(Vec<usize>, Vec<u8>), String> {
    let (mut nets, mut outputs) = (Vec::new(), Vec::new());
    for line in lines {
        let (net, bytes) = read_line(line).ok_or_else(|| format!("{line:?} is no output"))?;
        nets.push(net);
        outputs.push(bytes);
    }
    let cycles = outputs.first().map_or(0, Vec::len);
    if outputs.iter().any(|bytes| bytes.len() != cycles) {
        return Err(String::from("the lines of a page have unequal lengths"));
    }
    let mut record = Vec::new();
    for cycle in 0..cycles {
        record.extend(outputs.iter().map(|bytes| bytes[cycle]));
    }
    Ok((nets, record))
}

/// The net number and the bytes of one output. The number ends in column 5.
fn read_line(line: &str) -> Option<(usize, Vec<u8>)> {
    let (label, rest) = line.split_at(5);
    let net = number(label.trim_start_matches(' '))?;
    let signs = without_blanks_behind(rest.strip_prefix(' ')?);
    let bytes: Option<Vec<u8>> = signs.bytes().map(byte_of).collect();
    bytes
        .filter(|bytes| !bytes.is_empty())
        .map(|bytes| (net, bytes))
}

fn without_blanks_behind(text: &str) -> &str {
    text.trim_end_matches(' ')
}

/// A number in decimal digits, without a sign and without a leading 0.
fn number(digits: &str) -> Option<usize> {
    let number: usize = digits.parse().ok()?;
    (number.to_string() == digits).then_some(number)
}

/// The byte of a sign.
fn byte_of(sign: u8) -> Option<u8> {
    match sign {
        b'0' => Some(0),
        b'1' => Some(1),
        b'l' => Some(2),
        b'h' => Some(3),
        _ => None,
    }
}
