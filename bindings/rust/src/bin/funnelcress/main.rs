//! The command `funnelcress`: files in, lines out. Every answer is the library's; this reads, calls and prints.
mod args;
mod commands;
mod failure;
mod files;
mod help;
mod output;

use args::Args;
use failure::Failure;
use std::process::ExitCode;

fn run() -> Result<(), Failure> {
    let words: Vec<String> = std::env::args().skip(1).collect();
    let Some((name, rest)) = words.split_first() else {
        return Err(Failure::usage("no command", help::ALL));
    };
    if matches!(name.as_str(), "--help" | "-h" | "help") {
        return output::text(help::ALL);
    }
    let Some((help, command)) = commands::named(name) else {
        return Err(Failure::usage(&format!("no command {name}"), help::ALL));
    };
    let args = Args::parse(rest).map_err(|e| Failure::usage(&e, help))?;
    if args.help {
        return output::text(help);
    }
    command(&args).map_err(|e| e.with_usage(help))
}

fn main() -> ExitCode {
    match run() {
        Ok(()) => ExitCode::SUCCESS,
        Err(failure) => {
            eprintln!("{failure}");
            ExitCode::from(failure.status())
        }
    }
}
