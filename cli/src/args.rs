//! The command line.

use crate::rows::Format;
use clap::{Args, Parser, Subcommand};
use std::path::PathBuf;

/// Judges a netlist by gate-level information flow tracking: whether an untrusted pin can reach a protected output.
///
/// From Verilog, or a netlist in yosys' JSON, `import` makes an image and a names file. `run` takes stimuli and a policy, and says whether a
/// foreign pin has reached a protected output; `static` says it of all stimuli at once. What every verdict rests on, the tracker itself, is
/// proved; this command, which reads files, names things and prints, is not.
#[derive(Debug, Parser)]
#[command(name = "peshawe", version, after_help = STATUSES)]
#[command(subcommand_required = true, arg_required_else_help = false)]
pub struct Command {
    #[command(subcommand)]
    pub what: What,
}

/// What the exit statuses mean, at the end of every help text.
const STATUSES: &str = "\
Exit status: 0 clear, 1 flow, 2 refused, unreadable or not written. \
Where there is no verdict to give (import, check, size, verilog, double, manual), 0 says that all of it was done.";

/// What to do.
#[derive(Debug, Subcommand)]
pub enum What {
    Import(ImportArgs),
    Check(CheckArgs),
    Run(RunArgs),
    Static(StaticArgs),
    Page(PageArgs),
    Size(SizeArgs),
    Double(DoubleArgs),
    Verilog(VerilogArgs),
    Manual,
}

/// Make an image and a names file of a netlist
///
/// The netlist is one file in yosys' JSON (its name ends in .json), with yosys' internal gates and registers as its cells; or files in
/// Verilog, which yosys reads. It is converted as it stands: yosys only maps what is not a gate yet, and leaves out cells that nothing reads.
/// An inverter becomes an inverted pin.
///
/// Refused, with the name of the cell or port and its source line, are latches, a second clock or edge, a clock that is gated or used as
/// data, inout ports and tri-state drivers, black boxes, x and z constants, undriven nets, combinational loops, and more than 8,192 nets.
#[derive(Debug, Args)]
#[command(after_help = STATUSES)]
pub struct ImportArgs {
    /// The netlist
    #[arg(required = true, value_name = "FILE")]
    pub files: Vec<PathBuf>,
    /// Write BASE.img and BASE.names
    #[arg(short, long, value_name = "BASE")]
    pub output: PathBuf,
    /// The module to import, where there are several
    #[arg(long, value_name = "MODULE")]
    pub top: Option<String>,
    /// Take x and z constants as this value
    #[arg(long, value_name = "0|1", value_parser = bit)]
    pub undefined: Option<bool>,
    /// Mark the outputs that the policy protects always as protected in the image itself
    #[arg(long, value_name = "FILE")]
    pub policy: Option<PathBuf>,
    /// Look for included Verilog files in this folder too
    #[arg(short = 'I', long = "include", value_name = "FOLDER")]
    pub includes: Vec<PathBuf>,
    /// Define a Verilog macro
    #[arg(short = 'D', long = "define", value_name = "NAME[=VALUE]")]
    pub defines: Vec<String>,
}

/// Check an image alone
///
/// Says whether it is accepted, and how many nets, inputs, registers and outputs it has.
#[derive(Debug, Args)]
#[command(after_help = STATUSES)]
pub struct CheckArgs {
    /// The image
    pub image: PathBuf,
    /// Print JSON
    #[arg(long)]
    pub json: bool,
}

/// The netlist and its names.
#[derive(Debug, Args)]
pub struct DesignArgs {
    /// The image
    pub image: PathBuf,
    /// Its names file [default: the image's name with .names]
    #[arg(long, value_name = "FILE")]
    pub names: Option<PathBuf>,
}

/// The stimuli.
#[derive(Debug, Args)]
pub struct RowsArgs {
    /// The rows: what each input is in each cycle; - for standard input
    pub rows: Option<PathBuf>,
    /// The policy: foreign inputs, protected outputs
    #[arg(short, long, value_name = "FILE")]
    pub policy: Option<PathBuf>,
    /// How to read the rows [default: by the file's name: .vcd, .csv, otherwise raw]
    #[arg(long, value_enum)]
    pub format: Option<Format>,
    /// The scope of the VCD file that has the netlist's ports, as tb.dut
    #[arg(long)]
    pub scope: Option<String>,
    /// Take so many cycles, and no more
    #[arg(long, value_name = "COUNT")]
    pub cycles: Option<u64>,
    /// Print JSON
    #[arg(long)]
    pub json: bool,
}

/// Judge the netlist on stimuli
///
/// Prints the verdict: clear, or the first cycle and the protected output in which a foreign pin shows; then every protected output that was
/// ever marked with its first cycle, and how many registers had no start.
#[derive(Debug, Args)]
#[command(after_help = STATUSES)]
pub struct RunArgs {
    #[command(flatten)]
    pub design: DesignArgs,
    #[command(flatten)]
    pub rows: RowsArgs,
    /// Take x and z in the rows as this value
    #[arg(long, value_name = "0|1", value_parser = bit)]
    pub undefined: Option<bool>,
    /// Write values and marks of all named nets in all cycles
    #[arg(long, value_name = "FILE")]
    pub vcd: Option<PathBuf>,
}

/// Judge the netlist for all stimuli at once
///
/// Inputs for which neither the rows nor the policy give a value are unknown, and so are x and z in the rows: a clear verdict holds for all
/// their values. Without rows, --cycles says how many cycles to take.
#[derive(Debug, Args)]
#[command(after_help = STATUSES)]
pub struct StaticArgs {
    #[command(flatten)]
    pub design: DesignArgs,
    #[command(flatten)]
    pub rows: RowsArgs,
}

/// Write the pages of a run for the folder
///
/// A page shows 64 cycles of all outputs, by net number; in front of them stands a list of the numbers and names, and behind them the verdict.
#[derive(Debug, Args)]
#[command(after_help = STATUSES)]
pub struct PageArgs {
    #[command(flatten)]
    pub design: DesignArgs,
    #[command(flatten)]
    pub rows: RowsArgs,
    /// Take x and z in the rows as this value
    #[arg(long, value_name = "0|1", value_parser = bit)]
    pub undefined: Option<bool>,
}

/// Say how big the doubled netlist gets
#[derive(Debug, Args)]
#[command(after_help = STATUSES)]
pub struct SizeArgs {
    #[command(flatten)]
    pub design: DesignArgs,
    /// Print JSON
    #[arg(long)]
    pub json: bool,
}

/// Write the doubled netlist, in which the tracking is ordinary gates
#[derive(Debug, Args)]
#[command(after_help = STATUSES)]
pub struct DoubleArgs {
    #[command(flatten)]
    pub design: DesignArgs,
    /// Write BASE.img and BASE.names
    #[arg(short, long, value_name = "BASE")]
    pub output: PathBuf,
}

/// Write an image as Verilog, with its names
#[derive(Debug, Args)]
#[command(after_help = STATUSES)]
pub struct VerilogArgs {
    #[command(flatten)]
    pub design: DesignArgs,
    /// Write this file [default: standard output]
    #[arg(short, long, value_name = "FILE")]
    pub output: Option<PathBuf>,
    /// The name of the module
    #[arg(long, value_name = "NAME", default_value = "netlist")]
    pub module: String,
}

/// 0 or 1.
fn bit(text: &str) -> Result<bool, String> {
    match text {
        "0" => Ok(false),
        "1" => Ok(true),
        _ => Err("it is 0 or 1".to_string()),
    }
}
