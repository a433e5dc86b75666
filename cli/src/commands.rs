//! What each command does: it reads, has the library judge, and prints.

use crate::args::{CheckArgs, DoubleArgs, ImportArgs, PageArgs, RunArgs, SizeArgs, StaticArgs, VerilogArgs, What};
use crate::design::{read_image, Design};
use crate::doubled::doubled;
use crate::failure::{fail, Failure, Outcome};
use crate::files;
use crate::import::{self, Import};
use crate::judging::{judge, refused, Judgement, Method};
use crate::methods::{ByPages, ByRuns, ByStaticRuns, BySteps};
use crate::names;
use crate::policy::Policy;
use crate::report::{add_origin, origin_text, Report};
use crate::stimuli::{Stimuli, Unknowns};
use crate::wave::Wave;
use crate::{manual, verilog};
use serde_json::{json, Value};
use std::fs::File;
use std::io::{self, BufWriter, Write};
use std::path::Path;
use tracker::{doubled_size, kinds, protect, Image};

/// How a command ended: with nothing to judge, or with a verdict.
#[derive(Debug, Clone, Copy, PartialEq, Eq)]
pub enum Ended {
    Done,
    Clear,
    Flow,
}

/// Executes a command.
pub fn execute(what: &What) -> Outcome<Ended> {
    match what {
        What::Import(args) => import(args),
        What::Check(args) => check(args),
        What::Run(args) => run(args),
        What::Static(args) => static_run(args),
        What::Page(args) => page(args),
        What::Size(args) => size(args),
        What::Double(args) => double(args),
        What::Verilog(args) => write_verilog(args),
        What::Manual => say(&manual::page()).map(|()| Ended::Done),
    }
}

/// Whether a command prints JSON, its failures too.
pub fn in_json(what: &What) -> bool {
    match what {
        What::Check(args) => args.json,
        What::Run(args) => args.rows.json,
        What::Static(args) => args.rows.json,
        What::Size(args) => args.json,
        _ => false,
    }
}

/// Prints a text, all of it, or fails.
pub fn say(text: &str) -> Outcome<()> {
    let mut out = io::stdout().lock();
    let written = out.write_all(text.as_bytes()).and_then(|()| out.flush());
    written.map_err(|error| Failure::writing("standard output", &error))
}

/// Prints JSON, or a text.
fn say_either(in_json: bool, value: &Value, text: &str) -> Outcome<()> {
    if in_json {
        say(&format!("{value:#}\n"))
    } else {
        say(text)
    }
}

/// How a judgement ends a command.
fn ended(judgement: &Judgement) -> Ended {
    match judgement.flow {
        None => Ended::Clear,
        Some(_) => Ended::Flow,
    }
}

fn import(args: &ImportArgs) -> Outcome<Ended> {
    let mut imported = import::import(&Import {
        files: &args.files,
        top: args.top.as_deref(),
        includes: &args.includes,
        defines: &args.defines,
        undefined: args.undefined,
    })?;
    if let Some(policy) = &args.policy {
        protect_by(policy, &mut imported)?;
    }
    for note in &imported.notes {
        let _ = writeln!(io::stderr(), "peshawe: note: {note}");
    }
    let (image, names) = import::outputs(&args.output);
    files::write(&image, &imported.image)?;
    files::write(&names, names::write(&imported.names).as_bytes())?;
    let sizes = tracker::sizes(&imported.image);
    let Some(sizes) = sizes else { fail!("the image cannot be read back") };
    let clock = imported.names.clock.as_ref();
    let clock = clock.map_or_else(String::new, |clock| format!(", clock {}", clock.name));
    say(&format!(
        "{}: {} nets, {} inputs, {} registers, {} outputs{clock}\nwrote {} and {}\n",
        imported.top,
        sizes.nets,
        sizes.inputs,
        sizes.registers,
        sizes.outputs,
        image.display(),
        names.display()
    ))?;
    Ok(Ended::Done)
}

/// Protects outputs in the image itself, as a policy says.
fn protect_by(policy: &Path, imported: &mut import::Imported) -> Outcome<()> {
    let (inputs, outputs) = (imported.names.of_kind(kinds::INPUT), imported.names.of_kind(kinds::OUT));
    let bound = Policy::read(policy)?.bind(&inputs, &outputs)?;
    let nets: Vec<usize> = Image::of(&imported.image).map(|image| image.outputs().collect()).unwrap_or_default();
    for (output, net) in nets.into_iter().enumerate() {
        if bound.ever_protected(output) {
            protect(&mut imported.image, net, true);
        }
    }
    imported.names.image = files::hash(&imported.image);
    Ok(())
}

fn check(args: &CheckArgs) -> Outcome<Ended> {
    let bytes = read_image(&args.image)?;
    let Some(image) = Image::of(&bytes) else { fail!("the image cannot be read") };
    let sizes = image.sizes();
    let protected = image.outputs().filter(|&net| image.is_protected(net)).count();
    let without_start = image.registers().filter(|&net| image.start(net).is_none()).count();
    let hash = files::hash(&bytes);
    let value = json!({
        "command": "check", "nets": sizes.nets, "inputs": sizes.inputs, "registers": sizes.registers,
        "registers_without_start": without_start, "outputs": sizes.outputs, "protected": protected,
        "image": { "file": args.image.display().to_string(), "sha256": hash }, "version": env!("CARGO_PKG_VERSION"),
    });
    let text = format!(
        "accepted: {} nets, {} inputs, {} registers ({without_start} without a start), {} outputs ({protected} protected)\nimage: {} sha256 {hash}\n",
        sizes.nets, sizes.inputs, sizes.registers, sizes.outputs, args.image.display()
    );
    say_either(args.json, &value, &text)?;
    Ok(Ended::Done)
}

/// What becomes of x and z in the rows of a run.
fn unknowns(undefined: Option<bool>) -> Unknowns {
    undefined.map_or(Unknowns::Refused, Unknowns::TakenAs)
}

/// Judges, and refuses at once where the verdict could say nothing.
fn judged(design: &Design, stimuli: &mut Stimuli, method: &mut dyn Method) -> Outcome<Judgement> {
    let outputs = 0..design.outputs.len();
    let mut outputs = outputs.filter(|&output| design.is_protected(output) || stimuli.policy.ever_protected(output));
    if outputs.next().is_none() {
        fail!("no output is protected, so that there is nothing to judge; say in a policy which are");
    }
    let without_start = Image::of(&design.image).is_some_and(|image| image.registers().any(|net| image.start(net).is_none()));
    if !stimuli.can_mark() && !without_start {
        fail!("no input is foreign, so that there is nothing to judge; say in a policy which are");
    }
    judge(design, stimuli, method)
}

fn run(args: &RunArgs) -> Outcome<Ended> {
    let design = Design::read(&args.design)?;
    let mut stimuli = Stimuli::open(&args.rows, &design, unknowns(args.undefined))?;
    let judgement = match &args.vcd {
        None => judged(&design, &mut stimuli, &mut ByRuns)?,
        Some(file) => run_with_wave(&design, &mut stimuli, file)?,
    };
    let report = Report { command: "run", design: &design, judgement: &judgement, is_static: false };
    say_either(args.rows.json, &report.json(), &report.text())?;
    Ok(ended(&judgement))
}

/// Judges step by step, and writes every named net.
fn run_with_wave(design: &Design, stimuli: &mut Stimuli, file: &Path) -> Outcome<Judgement> {
    let name = file.display().to_string();
    let failed = |error| Failure::writing(&name, &error);
    let signals = design.signals();
    let comment = format!("values and marks of {}, sha256 {}", design.file, design.hash);
    let out = BufWriter::new(File::create(file).map_err(failed)?);
    let mut steps = BySteps {
        wave: Wave::new(out, &signals, &comment).map_err(failed)?,
        file: name.clone(),
        outputs: design.outputs.clone(),
        nets: vec![0; design.sizes.nets],
    };
    let judgement = judged(design, stimuli, &mut steps)?;
    let written = steps.wave.finish().and_then(|mut out| out.flush());
    written.map_err(failed)?;
    Ok(judgement)
}

fn static_run(args: &StaticArgs) -> Outcome<Ended> {
    let design = Design::read(&args.design)?;
    let mut stimuli = Stimuli::open(&args.rows, &design, Unknowns::Kept)?;
    let judgement = judged(&design, &mut stimuli, &mut ByStaticRuns)?;
    let report = Report { command: "static", design: &design, judgement: &judgement, is_static: true };
    say_either(args.rows.json, &report.json(), &report.text())?;
    Ok(ended(&judgement))
}

fn page(args: &PageArgs) -> Outcome<Ended> {
    let design = Design::read(&args.design)?;
    if args.rows.json {
        fail!("pages are text, and there is no JSON of them; take run --json");
    }
    let mut stimuli = Stimuli::open(&args.rows, &design, unknowns(args.undefined))?;
    let mut pages = ByPages { out: BufWriter::new(io::stdout().lock()) };
    let failed = |error| Failure::writing("standard output", &error);
    for &net in &design.outputs {
        writeln!(pages.out, "{net:>5} {}", design.names.name(net)).map_err(failed)?;
    }
    writeln!(pages.out).map_err(failed)?;
    let judgement = judged(&design, &mut stimuli, &mut pages)?;
    let report = Report { command: "page", design: &design, judgement: &judgement, is_static: false };
    write!(pages.out, "\n{}", report.text()).and_then(|()| pages.out.flush()).map_err(failed)?;
    Ok(ended(&judgement))
}

fn size(args: &SizeArgs) -> Outcome<Ended> {
    let design = Design::read(&args.design)?;
    let size = doubled_size(&design.image).map_err(refused)?;
    let of_kinds: Vec<(&str, usize)> = (0..=kinds::OUT).filter_map(|kind| kinds::name(kind).map(|name| (name, size.of_kind(kind)))).collect();
    let mut text = format!("the doubled netlist has {} nets, and its image {} bytes\n", size.nets, size.bytes);
    let mut value = json!({ "command": "size", "source_nets": design.sizes.nets, "nets": size.nets, "bytes": size.bytes });
    for (name, nets) in of_kinds {
        text.push_str(&format!("  {name:<5} {nets:>5}\n"));
        value["kinds"][name] = json!(nets);
    }
    add_origin(&mut value, &design);
    text.push_str(&origin_text(&design));
    say_either(args.json, &value, &text)?;
    Ok(Ended::Done)
}

fn double(args: &DoubleArgs) -> Outcome<Ended> {
    let design = Design::read(&args.design)?;
    let (image, names) = doubled(&design)?;
    let (image_file, names_file) = import::outputs(&args.output);
    files::write(&image_file, &image)?;
    files::write(&names_file, names::write(&names).as_bytes())?;
    say(&format!("{} nets\nwrote {} and {}\n", names.nets.len(), image_file.display(), names_file.display()))?;
    Ok(Ended::Done)
}

fn write_verilog(args: &VerilogArgs) -> Outcome<Ended> {
    let design = Design::read(&args.design)?;
    let text = verilog::module(&design, &args.module)?;
    match &args.output {
        Some(file) => files::write(file, text.as_bytes())?,
        None => say(&text)?,
    }
    Ok(Ended::Done)
}
