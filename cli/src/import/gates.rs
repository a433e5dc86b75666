//! Gates among yosys' internal cells, as nets of an image. What is inverted becomes an inverted pin.

use super::sheet::{Sheet, Site};
use tracker::Pin;

/// The pins that a gate of this type reads, or none where the type is not one of yosys' gates. Its output is Y.
pub fn pins(kind: &str) -> Option<&'static [&'static str]> {
    Some(match kind {
        "$_BUF_" | "$_NOT_" => &["A"],
        "$_AND_" | "$_NAND_" | "$_OR_" | "$_NOR_" | "$_XOR_" | "$_XNOR_" | "$_ANDNOT_" | "$_ORNOT_" => &["A", "B"],
        "$_MUX_" | "$_NMUX_" => &["A", "B", "S"],
        "$_AOI3_" | "$_OAI3_" => &["A", "B", "C"],
        "$_AOI4_" | "$_OAI4_" => &["A", "B", "C", "D"],
        "$_MUX4_" => &["A", "B", "C", "D", "S", "T"],
        "$_MUX8_" => &["A", "B", "C", "D", "E", "F", "G", "H", "S", "T", "U"],
        "$_MUX16_" => &[
            "A", "B", "C", "D", "E", "F", "G", "H", "I", "J", "K", "L", "M", "N", "O", "P", "S", "T", "U", "V",
        ],
        _ => return None,
    })
}

/// Adds the nets of a gate, whose pins are given in the order of [`pins`]. Answers with what reads its output.
pub fn put(sheet: &mut Sheet, site: &Site, kind: &str, pins: &[Pin]) -> Pin {
    let put_and = |sheet: &mut Sheet, part, a, b| sheet.and(site, part, a, b);
    let put_or = |sheet: &mut Sheet, part, a, b| sheet.or(site, part, a, b);
    match (kind, pins) {
        ("$_BUF_", &[a]) => a,
        ("$_NOT_", &[a]) => !a,
        ("$_AND_", &[a, b]) => put_and(sheet, None, a, b),
        ("$_NAND_", &[a, b]) => !put_and(sheet, None, a, b),
        ("$_ANDNOT_", &[a, b]) => put_and(sheet, None, a, !b),
        ("$_OR_", &[a, b]) => put_or(sheet, None, a, b),
        ("$_NOR_", &[a, b]) => !put_or(sheet, None, a, b),
        ("$_ORNOT_", &[a, b]) => put_or(sheet, None, a, !b),
        ("$_XOR_", &[a, b]) => sheet.xor(site, None, a, b),
        ("$_XNOR_", &[a, b]) => !sheet.xor(site, None, a, b),
        ("$_MUX_", &[a, b, s]) => sheet.mux(site, None, [a, b, s]),
        ("$_NMUX_", &[a, b, s]) => !sheet.mux(site, None, [a, b, s]),
        ("$_AOI3_", &[a, b, c]) => {
            let both = put_and(sheet, Some("and"), a, b);
            !put_or(sheet, None, both, c)
        }
        ("$_OAI3_", &[a, b, c]) => {
            let either = put_or(sheet, Some("or"), a, b);
            !put_and(sheet, None, either, c)
        }
        ("$_AOI4_", &[a, b, c, d]) => {
            let first = put_and(sheet, Some("and0"), a, b);
            let second = put_and(sheet, Some("and1"), c, d);
            !put_or(sheet, None, first, second)
        }
        ("$_OAI4_", &[a, b, c, d]) => {
            let first = put_or(sheet, Some("or0"), a, b);
            let second = put_or(sheet, Some("or1"), c, d);
            !put_and(sheet, None, first, second)
        }
        _ => tree(sheet, site, pins),
    }
}

/// Adds a MUX of 4, 8 or 16 data pins as MUXes of two. The selects stand behind the data pins, and the first of them chooses between
/// neighbours.
fn tree(sheet: &mut Sheet, site: &Site, pins: &[Pin]) -> Pin {
    let selects = match pins.len() {
        6 => 2,
        11 => 3,
        _ => 4,
    };
    let (data, selects) = pins.split_at(pins.len() - selects);
    let mut level = data.to_vec();
    for (height, &select) in selects.iter().enumerate() {
        let last = height + 1 == selects.len();
        let chosen = level.chunks_exact(2).enumerate().map(|(at, pair)| {
            let part = format!("mux{height}_{at}");
            let part = if last { None } else { Some(part.as_str()) };
            sheet.mux(site, part, [pair[0], pair[1], select])
        });
        level = chosen.collect();
    }
    level[0]
}
