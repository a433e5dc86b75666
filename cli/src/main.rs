//! The command `peshawe`: reads netlists, policies and stimuli, has the proved library judge, and prints.
//!
//! It stands outside the proofs. Its exit status is 0 for clear (and for what has no verdict, done), 1 for flow, and 2 for everything else.

mod args;
mod commands;
mod design;
mod doubled;
mod failure;
mod files;
mod import;
mod judging;
mod manual;
mod methods;
mod names;
mod policy;
mod progress;
mod report;
mod rows;
mod stimuli;
mod verilog;
mod wave;

use args::Command;
use clap::Parser;
use commands::{execute, in_json, say, Ended};
use serde_json::json;
use std::io::{self, Write};
use std::panic;
use std::process::ExitCode;

/// The status for whatever is neither clear nor a flow.
const REFUSED: u8 = 2;

fn main() -> ExitCode {
    // A panic is an error of this command, and must not look like a verdict.
    let status = panic::catch_unwind(command).unwrap_or(REFUSED);
    ExitCode::from(status)
}

/// Executes the command line.
fn command() -> u8 {
    let command = match Command::try_parse() {
        Ok(command) => command,
        Err(error) => return parsed_otherwise(&error),
    };
    match execute(&command.what) {
        Ok(Ended::Done | Ended::Clear) => 0,
        Ok(Ended::Flow) => 1,
        Err(failure) => {
            if in_json(&command.what) {
                let value = json!({ "verdict": null, "error": failure.to_string(), "version": env!("CARGO_PKG_VERSION") });
                let _ = say(&format!("{value:#}\n"));
            }
            let _ = writeln!(io::stderr(), "peshawe: {failure}");
            REFUSED
        }
    }
}

/// A command line that asks for help or the version, or that is wrong.
fn parsed_otherwise(error: &clap::Error) -> u8 {
    let printed = error.print();
    if error.use_stderr() || printed.is_err() {
        REFUSED
    } else {
        0
    }
}
