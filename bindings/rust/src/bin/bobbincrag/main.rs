//! The command `bobbincrag`: captions retimed through a cut, from files to files.
//!
//! Status 0: done. 1: refused, or a file that can't be read or written. 2: the command line is wrong.
#![deny(unsafe_code)]

mod args;
mod census;
mod check;
mod closed;
mod commands;
mod completions;
mod cues;
mod cut;
mod delay;
mod failure;
mod film;
mod input;
mod map;
mod notes;
mod output;
mod page;
mod picture;
mod progress;
mod report;
mod retime;
mod sheet;
mod shift;
mod stderr;
mod subs;
mod why;

use failure::Failure;
use std::ffi::OsString;
use std::process::ExitCode;

fn main() -> ExitCode {
    let words: Vec<OsString> = std::env::args_os().skip(1).collect();
    match run(&words) {
        Ok(()) => ExitCode::SUCCESS,
        Err(failure) => failure.told(),
    }
}

/// The first word names the command; `--help` and `--version` can stand in its place.
fn run(words: &[OsString]) -> Result<(), Failure> {
    let (first, rest) = words.split_first().ok_or_else(|| Failure::usage(None, "no command is named"))?;
    match first.to_str() {
        Some("--help" | "-h" | "help") => return help(rest),
        Some("--version" | "-V") => return output::print(concat!("bobbincrag ", env!("RETIMER_VERSION"), "\n").as_bytes()),
        _ => {}
    }
    let command = named(first)?;
    if rest.iter().take_while(|w| *w != "--").any(|w| w == "--help" || w == "-h") {
        return output::print(commands::help(command).as_bytes());
    }
    let args = args::read(command, rest)?;
    (command.run)(&args)
}

fn named(name: &OsString) -> Result<&'static commands::Command, Failure> {
    let command = commands::ALL.iter().find(|c| name == c.name);
    command.ok_or_else(|| Failure::usage(None, format!("there is no command {}", name.to_string_lossy())))
}

/// The help of the command that is named, or of all.
fn help(words: &[OsString]) -> Result<(), Failure> {
    match words.first() {
        Some(name) if !name.as_encoded_bytes().starts_with(b"-") => output::print(commands::help(named(name)?).as_bytes()),
        _ => output::print(commands::overview().as_bytes()),
    }
}
