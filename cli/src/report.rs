//! What is printed of a judgement, for people and for machines.

use crate::design::Design;
use crate::judging::{Flow, Judgement};
use serde_json::{json, Value};
use std::fmt::Write;

/// A judgement with what it is of.
pub struct Report<'a> {
    pub command: &'static str,
    pub design: &'a Design,
    pub judgement: &'a Judgement,
    /// Whether it is of all values of the unknown bits.
    pub is_static: bool,
}

impl Report<'_> {
    /// The verdict in one line.
    fn verdict(&self) -> String {
        let cycles = self.judgement.cycles;
        match (self.judgement.flow, self.is_static) {
            (None, false) => format!("clear in all {cycles} cycles"),
            (None, true) => format!("clear in all {cycles} cycles, for all values of the unknown bits"),
            (Some(flow), false) => format!("flow in cycle {} at {}", flow.cycle, self.design.told(flow.net)),
            (Some(flow), true) => format!("flow in cycle {} at {}, for some values of the unknown bits by the gate rules", flow.cycle, self.design.told(flow.net)),
        }
    }

    /// The text for people.
    pub fn text(&self) -> String {
        let mut text = format!("{}\n", self.verdict());
        if !self.judgement.marked.is_empty() {
            text.push_str("protected outputs that were marked, with the first cycle of each:\n");
        }
        for flow in &self.judgement.marked {
            let _ = writeln!(text, "  {:>8}  {}", flow.cycle, self.design.told(flow.net));
        }
        let _ = writeln!(text, "cycles: {}", self.judgement.cycles);
        let _ = writeln!(text, "registers without a start: {}", self.judgement.registers_without_start);
        text.push_str(&origin_text(self.design));
        text
    }

    /// The same for machines.
    pub fn json(&self) -> Value {
        let flow = |flow: &Flow| {
            json!({ "cycle": flow.cycle, "output": self.design.names.name(flow.net), "net": flow.net })
        };
        let mut value = json!({
            "command": self.command,
            "verdict": if self.judgement.flow.is_some() { "flow" } else { "clear" },
            "flow": self.judgement.flow.as_ref().map(flow),
            "marked": self.judgement.marked.iter().map(flow).collect::<Vec<_>>(),
            "cycles": self.judgement.cycles,
            "registers_without_start": self.judgement.registers_without_start,
        });
        add_origin(&mut value, self.design);
        value
    }
}

/// The lines that say what a report is of: the image and the files that it was made of, with their hashes.
pub fn origin_text(design: &Design) -> String {
    let mut text = format!("image: {} sha256 {}\n", design.file, design.hash);
    for source in &design.names.sources {
        let _ = writeln!(text, "source: {} sha256 {}", source.file, source.hash);
    }
    text
}

/// The same for machines.
pub fn add_origin(value: &mut Value, design: &Design) {
    let sources = design.names.sources.iter();
    let sources = sources.map(|source| json!({ "file": source.file, "sha256": source.hash }));
    value["image"] = json!({ "file": design.file, "sha256": design.hash });
    value["sources"] = sources.collect();
    value["version"] = json!(env!("CARGO_PKG_VERSION"));
}
