//! `bobbincrag why`: what becomes of a caption, and the reason.
use crate::args::Args;
use crate::cut;
use crate::failure::Failure;
use crate::input;
use crate::output;
use crate::page::Page;
use crate::subs;
use retimer::captions::{read_time, shown, Caption, Times};
use retimer::{why, Fate, Kind, Map, Refused};

pub fn run(args: &Args) -> Result<(), Failure> {
    cut::named(args)?;
    match (args.has("--subs"), args.words.is_empty()) {
        (true, true) => of_text(args),
        (true, false) => Err(args.usage("it takes START and END, or --subs, not both")),
        (false, _) => of_times(args),
    }
}

/// One caption, by its times.
fn of_times(args: &Args) -> Result<(), Failure> {
    let [start, stop] = args.exactly("START and END, or captions by --subs")?;
    if args.has("--line") {
        return Err(args.usage("--line names a caption of --subs"));
    }
    let kind = input::named_kind(args)?.ok_or_else(|| args.usage("say the kind of the times with --kind"))?;
    let read = |text: &str| read_time(kind, text).ok_or_else(|| Failure::refused(format!("{} ({text})", Refused(22))));
    let (from, to) = (read(start)?, read(stop)?);
    let cut = cut::read(args)?;
    let fate = why(&cut.map, kind, from, to).map_err(Failure::refused)?;
    let mark = if kind == Kind::Srt && start.contains(',') { ',' } else { '.' };
    let page = Page { map: &cut.map, kind, mark };
    output::print(format!("{} {} {}\n{}", kind.name(), start.trim(), stop.trim(), page.answer(&fate, false)).as_bytes())
}

/// The captions of a text that lose something, or the one at a line.
fn of_text(args: &Args) -> Result<(), Failure> {
    let name = args.one("--subs").unwrap_or_default();
    let kind = input::kind_of(args, name)?;
    let line = args.one("--line").map(|n| number(args, n)).transpose()?;
    let map = cut::read(args)?.map;
    let text = input::captions(args, name)?;
    let read = subs::fates(&map, kind, &text)?;
    let page = match line {
        Some(line) if line > lines(&text.bytes) => {
            return Err(Failure::refused(format!("no caption stands at line {line}: {} has {} lines", text.name, lines(&text.bytes))));
        }
        Some(line) => {
            // the caption that begins at the line or last before it
            let found = read.iter().rev().find(|(c, _)| c.line <= line);
            let (caption, fate) = found.ok_or_else(|| Failure::refused(format!("no caption stands at line {line} of {}", text.name)))?;
            told(&map, kind, &text.name, caption, fate.as_ref(), false)
        }
        None => {
            let lost = read.iter().filter(|(_, fate)| fate.as_ref().is_some_and(|f| !f.is_shifted()));
            let page: String = lost.map(|(c, fate)| told(&map, kind, &text.name, c, fate.as_ref(), true)).collect();
            if page.is_empty() && !read.is_empty() {
                format!("{}: every caption is kept whole\n", text.name)
            } else {
                page
            }
        }
    };
    output::print(page.as_bytes())
}

/// How many lines a text has.
fn lines(text: &[u8]) -> u64 {
    text.split_inclusive(|b| *b == b'\n').count() as u64
}

fn number(args: &Args, text: &std::ffi::OsStr) -> Result<u64, Failure> {
    let read = text.to_str().and_then(|t| t.parse().ok()).filter(|n| *n > 0);
    read.ok_or_else(|| args.usage("--line is a line, counted from 1"))
}

/// A caption with its line and words, and below it what becomes of it.
fn told(map: &Map, kind: Kind, name: &str, caption: &Caption<'_>, fate: Option<&Fate>, near: bool) -> String {
    let page = Page { map, kind, mark: if kind == Kind::Srt { ',' } else { '.' } };
    let times = match caption.times {
        Times::Read { start, stop } => format!("{} to {}", kind.time(start), kind.time(stop)),
        Times::Passed { .. } => "no times are read".to_string(),
    };
    let head = format!("{name}:{}: {times}: \"{}\"\n", caption.line, shown(&caption.words()));
    head + &fate.map_or("  passes unchanged\n".to_string(), |f| page.answer(f, near))
}
