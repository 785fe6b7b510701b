//! The proved library beside the source's `resume`, at scale.

mod blanking;
mod counts;
mod damage;
mod damaged;
mod differences;
mod fenced;
mod generate;
mod guarded;
mod options;
mod progress;
mod region_edges;
mod sides;
mod steps;
mod tables;
mod traced;

use std::process::ExitCode;

use options::Options;

/// A part of the comparison.
struct Part {
    name: &'static str,
    help: &'static str,
    /// How much it compares where no option says otherwise, and of what.
    count: u64,
    unit: &'static str,
    compare: fn(&Options) -> Result<(), String>,
}

const PARTS: [Part; 4] = [
    Part {
        name: "steps",
        help: "the library beside `resume`, step for step",
        count: 50_000_000,
        unit: "steps",
        compare: steps::compare,
    },
    Part {
        name: "traced",
        help: "the traced run beside `resume` with traces, line for row",
        count: 10_000_000,
        unit: "rows",
        compare: traced::compare,
    },
    Part {
        name: "guarded",
        help: "the guarded run of pairs, the plain run beside it, and a model",
        count: 1_000_000,
        unit: "programs",
        compare: guarded::compare,
    },
    Part {
        name: "damaged",
        help: "calls with damaged states, words and texts, traced ones beside plain ones",
        count: 1_500_000,
        unit: "calls",
        compare: damaged::compare,
    },
];

fn main() -> ExitCode {
    let arguments: Vec<String> = std::env::args().skip(1).collect();
    let result = match arguments.split_first() {
        Some((name, _)) if name == "--help" => {
            print!("{}", help());
            Ok(())
        }
        Some((name, rest)) => compare(name, rest),
        None => Err(format!("no command\n{}", help())),
    };
    match result {
        Ok(()) => ExitCode::SUCCESS,
        Err(what) => {
            eprintln!("compare: {what}");
            ExitCode::FAILURE
        }
    }
}

fn compare(name: &str, arguments: &[String]) -> Result<(), String> {
    let wanted: Vec<&Part> = PARTS
        .iter()
        .filter(|part| name == "all" || part.name == name)
        .collect();
    if wanted.is_empty() {
        return Err(format!("{name}: no such command\n{}", help()));
    }
    for part in wanted {
        let options = Options::read(arguments, part.count)?;
        eprintln!("{}: begins", part.name);
        println!("\n### {}", part.name);
        (part.compare)(&options).map_err(|what| format!("{}: {what}", part.name))?;
        eprintln!("{}: nothing differs", part.name);
    }
    Ok(())
}

fn help() -> String {
    let parts = PARTS.map(|part| format!("  {:<10} {}\n", part.name, part.help));
    let counts = PARTS.map(|part| format!("{} {}", part.count, part.unit));
    format!(
        "\
usage: compare COMMAND [--count COUNT] [--seed SEED] [--only NUMBER]

{}  all        each of them
  --help     prints this

  --count    how much is compared at least; by default {}
  --seed     in hexadecimal; by default {:x}
  --only     draws one program or call alone, by its number; it need not meet everything
",
        parts.concat(),
        counts.join(", "),
        options::SEED
    )
}
