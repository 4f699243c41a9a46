//! The words of a command line: options with their values, and other words.
use crate::commands::{Command, Opt};
use crate::failure::Failure;
use std::ffi::{OsStr, OsString};

pub struct Args {
    pub command: &'static Command,
    options: Vec<(&'static str, OsString)>,
    pub words: Vec<OsString>,
}

impl Args {
    /// The value of an option that is given at most once.
    pub fn one(&self, name: &'static str) -> Option<&OsStr> {
        self.all(name).next()
    }

    /// All values of an option.
    pub fn all(&self, name: &'static str) -> impl Iterator<Item = &OsStr> {
        self.options.iter().filter(move |o| o.0 == name).map(|o| o.1.as_os_str())
    }

    pub fn has(&self, name: &str) -> bool {
        self.options.iter().any(|o| o.0 == name)
    }

    pub fn usage(&self, what: impl Into<String>) -> Failure {
        Failure::usage(Some(self.command), what)
    }

    /// Exactly so many words that are no options, as text.
    pub fn exactly<const N: usize>(&self, what: &str) -> Result<[&str; N], Failure> {
        let words: Option<Vec<&str>> = self.words.iter().map(|w| w.to_str()).collect();
        words.and_then(|w| w.try_into().ok()).ok_or_else(|| self.usage(format!("it takes {what}")))
    }
}

/// Whether a word is a value, and not an option: `-` alone is standard input.
fn is_value(word: &OsStr) -> bool {
    word == "-" || !word.as_encoded_bytes().starts_with(b"-")
}

/// A number below zero, which begins with a sign.
fn is_number(word: &OsStr) -> bool {
    matches!(word.as_encoded_bytes(), [b'-', b'0'..=b'9' | b'.', ..])
}

/// An option by one of its names; `--name=value` gives the value too.
fn option(command: &'static Command, word: &OsStr) -> Result<(&'static Opt, Option<OsString>), Failure> {
    let Some(text) = word.to_str() else {
        return Err(Failure::usage(Some(command), format!("there is no option {}", word.to_string_lossy())));
    };
    let (name, value) = match text.split_once('=') {
        Some((name, value)) if name.starts_with("--") => (name, Some(OsString::from(value))),
        _ => (text, None),
    };
    let found = command.options.iter().find(|o| o.name == name || o.long == name);
    found.map(|o| (*o, value)).ok_or_else(|| Failure::usage(Some(command), format!("there is no option {name}")))
}

pub fn read(command: &'static Command, words: &[OsString]) -> Result<Args, Failure> {
    let mut args = Args { command, options: Vec::new(), words: Vec::new() };
    let mut rest = words.iter().peekable();
    let mut ended = false;
    while let Some(word) = rest.next() {
        // behind -- every word is none of the options
        if word == "--" && !ended {
            ended = true;
            continue;
        }
        if ended || is_value(word) {
            args.words.push(word.clone());
            continue;
        }
        let (opt, given) = option(command, word)?;
        if !opt.many && args.has(opt.name) {
            return Err(args.usage(format!("{} stands twice", opt.name)));
        }
        let mut values: Vec<OsString> = given.into_iter().collect();
        if opt.value.is_empty() {
            if !values.is_empty() {
                return Err(args.usage(format!("{} takes no value", opt.name)));
            }
            values.push(OsString::new());
        } else if values.is_empty() {
            values.extend(rest.next_if(|w| is_value(w) || opt.value == "SECONDS" && is_number(w)).cloned());
            while let Some(more) = rest.next_if(|w| opt.many && is_value(w)) {
                values.push(more.clone());
            }
        }
        if values.is_empty() || (!opt.value.is_empty() && values.iter().any(|v| v.is_empty())) {
            return Err(args.usage(format!("{} needs {}", opt.name, opt.value)));
        }
        args.options.extend(values.into_iter().map(|v| (opt.name, v)));
    }
    if args.words.len() > command.words.split_whitespace().count() {
        let extra = args.words[command.words.split_whitespace().count()].to_string_lossy().into_owned();
        return Err(args.usage(format!("{extra} is one word too many")));
    }
    Ok(args)
}
