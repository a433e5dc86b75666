//! The manual page, made from the help texts.

use crate::args::Command;
use clap::{Arg, CommandFactory};
use std::fmt::Write;

/// A text as roff has it.
fn roff(text: &str) -> String {
    let escaped = text.replace('\\', "\\e").replace('-', "\\-");
    let guarded = |line: &str| if line.starts_with(['.', '\'']) { format!("\\&{line}") } else { line.to_string() };
    escaped.lines().map(guarded).collect::<Vec<_>>().join("\n")
}

/// Paragraphs: an empty line ends one.
fn paragraphs(text: &str) -> String {
    roff(text).split("\n\n").collect::<Vec<_>>().join("\n.PP\n")
}

/// How an argument is written.
fn written(arg: &Arg) -> String {
    let value = arg.get_value_names().map(|names| names.iter().map(|name| name.to_string()).collect::<Vec<_>>().join(" "));
    let takes = arg.get_action().takes_values();
    let value = value.filter(|_| takes).unwrap_or_default();
    if arg.is_positional() {
        return value;
    }
    let short = arg.get_short().map(|short| format!("-{short}"));
    let long = arg.get_long().map(|long| format!("--{long}"));
    let flags: Vec<String> = short.into_iter().chain(long).collect();
    format!("{} {value}", flags.join(", ")).trim_end().to_string()
}

/// The manual page.
pub fn page() -> String {
    let mut command = Command::command();
    command.build();
    let version = command.get_version().unwrap_or_default().to_string();
    let about = command.get_about().map(|text| text.to_string()).unwrap_or_default();
    let mut page = format!(".TH PESHAWE 1 \"\" \"peshawe {version}\"\n.SH NAME\npeshawe \\- {}\n", roff(about.trim_end_matches('.')));
    page.push_str(".SH SYNOPSIS\n.B peshawe\nCOMMAND [OPTIONS] [ARGUMENTS]\n.SH DESCRIPTION\n");
    let long = command.get_long_about().map(|text| text.to_string()).unwrap_or_default();
    let _ = writeln!(page, "{}", paragraphs(&long));
    page.push_str(".SH COMMANDS\n");
    for sub in command.get_subcommands().filter(|sub| sub.get_name() != "help") {
        let _ = writeln!(page, ".SS \"peshawe {}\"", sub.get_name());
        let about = sub.get_long_about().or_else(|| sub.get_about()).map(|text| text.to_string());
        let _ = writeln!(page, "{}", paragraphs(&about.unwrap_or_default()));
        for arg in sub.get_arguments().filter(|arg| arg.get_id() != "help" && arg.get_id() != "version") {
            let help = arg.get_help().map(|text| text.to_string()).unwrap_or_default();
            let _ = writeln!(page, ".TP\n.B {}\n{}", roff(&written(arg)), roff(&help));
        }
    }
    let after = command.get_after_help().map(|text| text.to_string()).unwrap_or_default();
    let _ = writeln!(page, ".SH EXIT STATUS\n{}", paragraphs(after.trim_start_matches("Exit status: ")));
    page
}
