//! The library's speed, beside the Rust `resume` and the yardstick: tables to stdout, progress to stderr, a picture where one is asked for.

mod before;
mod chart;
mod contenders;
mod entry;
mod growth;
mod instructions;
mod interface;
mod programs;
mod stack;
mod steps;
mod text;
mod timing;
mod yardstick;

use std::env::{args, consts};
use std::fs;
use std::process::ExitCode;
use std::thread;

use before::Before;

const HELP: &str = "\
usage: bench [--only PART] [--plot FILE] [--before FILE]

  --only PART    only one of the parts: steps, instructions, entry, text, interface, growth, stack; instructions, which need valgrind,
                 are counted only where this asks for them
  --plot FILE    writes the part growth into FILE too, as a picture (SVG)
  --before FILE  an older build of the library, of the same version, as a shared object: the part text measures it beside the present one
  --help         prints this
";

const PARTS: [&str; 7] = [
    "steps",
    "instructions",
    "entry",
    "text",
    "interface",
    "growth",
    "stack",
];

struct Options {
    only: Option<String>,
    plot: Option<String>,
    before: Option<String>,
}

/// `None` where the help is asked for.
fn options() -> Result<Option<Options>, String> {
    let mut options = Options {
        only: None,
        plot: None,
        before: None,
    };
    let mut arguments = args().skip(1);
    while let Some(argument) = arguments.next() {
        let mut value = || arguments.next().ok_or(format!("{argument} needs a value"));
        match argument.as_str() {
            "--only" => options.only = Some(value()?),
            "--plot" => options.plot = Some(value()?),
            "--before" => options.before = Some(value()?),
            "--help" => return Ok(None),
            _ => return Err(format!("{argument}: no such option")),
        }
    }
    match &options.only {
        Some(part) if !PARTS.contains(&part.as_str()) => {
            Err(format!("--only {part}: no such part"))
        }
        _ => Ok(Some(options)),
    }
}

fn heading() -> String {
    let cores = thread::available_parallelism().map_or(1, |cores| cores.get());
    format!(
        "Measured on {}, {cores} cores, release builds, in time of the processor. All that is compared takes turns; a time is the median \
         of its turns, a ratio the median of the turns' ratios.",
        consts::ARCH.replace('_', "-")
    )
}

fn measure(options: &Options) -> Result<(), String> {
    let wanted = |part: &str| options.only.as_ref().is_none_or(|only| only == part);
    let before = options.before.as_deref().map(Before::load).transpose()?;
    println!("{}\n", heading());
    if wanted("steps") {
        println!("## Steps\n\nNanoseconds a step.\n\n{}", steps::table());
    }
    if options.only.as_deref() == Some("instructions") {
        println!(
            "## Instructions\n\nInstructions a step.\n\n{}",
            instructions::table()?
        );
    }
    if wanted("entry") {
        println!(
            "## Entry\n\nNanoseconds a call with budget 1.\n\n{}",
            entry::table()
        );
    }
    if wanted("text") {
        println!(
            "## Text\n\nNanoseconds.\n\n{}",
            text::tables(before.as_ref())
        );
    }
    if wanted("interface") {
        println!(
            "## Interface\n\nNanoseconds a call.\n\n{}",
            interface::table()
        );
    }
    if wanted("growth") {
        let panels = growth::panels();
        println!("## Growth\n\n{}", growth::tables(&panels));
        if let Some(file) = &options.plot {
            fs::write(file, chart::svg(&panels)).map_err(|error| format!("{file}: {error}"))?;
        }
    }
    if wanted("stack") {
        println!("## Stack\n\n{}", stack::table());
    }
    Ok(())
}

fn main() -> ExitCode {
    let arguments: Vec<String> = args().skip(1).collect();
    if arguments
        .first()
        .is_some_and(|first| first == instructions::COUNTED)
    {
        return ended(instructions::run(&arguments[1..]));
    }
    ended(match options() {
        Ok(Some(options)) => measure(&options),
        Ok(None) => {
            print!("{HELP}");
            Ok(())
        }
        Err(wrong) => Err(format!("{wrong}\n{HELP}")),
    })
}

fn ended(measured: Result<(), String>) -> ExitCode {
    match measured {
        Ok(()) => ExitCode::SUCCESS,
        Err(wrong) => {
            eprintln!("bench: {wrong}");
            ExitCode::FAILURE
        }
    }
}
