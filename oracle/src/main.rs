use std::path::Path;
use std::process::ExitCode;

use oracle::{differences, replay};

const HELP: &str = "\
usage: oracle COMMAND

  replay FOLDER  writes stdin and stdout of the program `replay`, as stored in crates/replay, into the folder
  differences    prints where the source differs from document 01, as stored in answers/differences.txt
  --help         prints this
";

fn main() -> ExitCode {
    let arguments: Vec<String> = std::env::args().skip(1).collect();
    let arguments: Vec<&str> = arguments.iter().map(String::as_str).collect();
    match arguments[..] {
        ["replay", folder] => return write_replay(Path::new(folder)),
        ["differences"] => print!("{}", differences::text()),
        ["--help"] => print!("{HELP}"),
        [] => return wrong("no command"),
        _ => return wrong(&format!("{}: no such command", arguments.join(" "))),
    }
    ExitCode::SUCCESS
}

fn wrong(what: &str) -> ExitCode {
    eprint!("oracle: {what}\n{HELP}");
    ExitCode::FAILURE
}

fn write_replay(folder: &Path) -> ExitCode {
    for (name, text) in [("stdin", replay::input()), ("stdout", replay::output())] {
        let path = folder.join(name);
        if let Err(error) = std::fs::write(&path, text) {
            eprintln!("oracle: {} cannot be written: {error}", path.display());
            return ExitCode::FAILURE;
        }
        println!("wrote {}", path.display());
    }
    ExitCode::SUCCESS
}
