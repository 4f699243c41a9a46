//! Why a command ends without its result.
use crate::commands::Command;
use crate::input::{not_utf8, Input};
use crate::stderr::say;
use retimer::faults::Fault;
use retimer::Stopped;
use std::path::Path;
use std::process::ExitCode;

pub enum Failure {
    /// Status 2: what is wrong with the command line, and of which command.
    Usage(Option<&'static Command>, String),
    /// Status 1: lines that say why.
    Refused(Vec<String>),
    /// Status 1: the lines are said, on standard output.
    Told,
}

impl Failure {
    pub fn usage(command: Option<&'static Command>, what: impl Into<String>) -> Failure {
        Failure::Usage(command, what.into())
    }

    pub fn refused(line: impl std::fmt::Display) -> Failure {
        Failure::Refused(vec![line.to_string()])
    }

    /// A text that was refused, in the words of `refused_text`.
    pub fn text(stopped: &Stopped, text: &Input) -> Failure {
        Failure::refused(refused_text(stopped, text))
    }

    pub fn reading(name: &str, error: &std::io::Error) -> Failure {
        Failure::refused(format!("cannot read {name}: {}", reason(error)))
    }

    pub fn writing(path: &Path, why: impl std::fmt::Display) -> Failure {
        Failure::refused(format!("cannot write {}: {why}", path.display()))
    }

    /// Says it, and gives the status.
    pub fn told(self) -> ExitCode {
        match self {
            Failure::Usage(command, what) => {
                let name = command.map_or("bobbincrag".to_string(), |c| format!("bobbincrag {}", c.name));
                say(format_args!("{name}: {what}"));
                say(format_args!("usage: {}", command.map_or("bobbincrag COMMAND .., see bobbincrag --help".to_string(), |c| c.usage())));
                ExitCode::from(2)
            }
            Failure::Refused(lines) => {
                lines.iter().for_each(say);
                ExitCode::from(1)
            }
            Failure::Told => ExitCode::from(1),
        }
    }
}

/// `refused N: sentence`, and in brackets the file, and where it is at fault its line and the words there.
pub fn refused_text(stopped: &Stopped, text: &Input) -> String {
    match Fault::of_text(stopped, &text.bytes) {
        Some(fault) => fault_text(&fault, text),
        None => format!("{} ({})", stopped.refused, text.name),
    }
}

/// A fault of a text; of bytes that are not UTF-8 another line says what they look like.
pub fn fault_text(fault: &Fault, text: &Input) -> String {
    let line = format!("{} ({}, {})", fault.refused, text.name, fault.place);
    match fault.refused.number() {
        20 => format!("{line}\n{}", not_utf8(text)),
        _ => line,
    }
}

/// What the system says of an error, without its number.
pub fn reason(error: &std::io::Error) -> String {
    let text = error.to_string();
    text.split(" (os error").next().unwrap_or(&text).to_string()
}
