//! `bobbincrag cues`: every caption with what becomes of it, a line each, for scripts and spreadsheets.
use crate::args::Args;
use crate::cut;
use crate::failure::Failure;
use crate::input::{self, Input};
use crate::output;
use crate::subs::{self, Fared};
use retimer::captions::Times;
use retimer::{retime, ticks_to_units_ceil, Fate, Kind, Map, Refused};
use std::collections::BTreeMap;
use std::ffi::OsStr;
use std::path::PathBuf;

pub fn run(args: &Args) -> Result<(), Failure> {
    cut::named(args)?;
    let json = match (args.has("--json"), args.has("--tsv")) {
        (true, false) => true,
        (false, true) => false,
        _ => return Err(args.usage("say --json or --tsv")),
    };
    let names: Vec<&OsStr> = args.all("--subs").collect();
    if names.is_empty() {
        return Err(args.usage("name the captions with --subs"));
    }
    let kinds = names.iter().map(|s| input::kind_of(args, s)).collect::<Result<Vec<Kind>, _>>()?;
    let outs: Vec<PathBuf> = args.one("-o").map(PathBuf::from).into_iter().collect();
    output::apart(args, &outs)?;
    let map = cut::read(args)?.map;
    let texts = names.iter().map(|s| input::captions(args, s)).collect::<Result<Vec<Input>, _>>()?;
    let mut page = if json { String::new() } else { HEAD.join("\t") + "\n" };
    for (text, kind) in texts.iter().zip(kinds) {
        let rows = rows(&map, kind, text)?;
        page.extend(rows.iter().map(|row| if json { row.json() } else { row.tsv() }));
    }
    output::write(args.one("-o"), page.as_bytes())
}

/// The columns.
const HEAD: [&str; 12] = ["file", "line", "start", "end", "fate", "new_start", "new_end", "stretch", "cut_start", "cut_end", "warnings", "words"];

/// A caption. Times are in units of its kind; what does not apply is missing.
struct Row<'t> {
    file: &'t str,
    kind: Kind,
    line: u64,
    times: Option<[u64; 2]>,
    fate: &'static str,
    new: Option<[u64; 2]>,
    /// The kept stretch, counted from 1.
    stretch: Option<usize>,
    /// How long what was cut off at each end is, rounded up.
    cut: Option<[u64; 2]>,
    warnings: Vec<u32>,
    words: String,
}

/// The captions of a text, in its order. Line, times and words are the reader's, the fate is that of `why`, and the warnings are those of retiming.
fn rows<'t>(map: &Map, kind: Kind, text: &'t Input) -> Result<Vec<Row<'t>>, Failure> {
    let read = subs::fates(map, kind, text)?;
    let retimed = retime(kind, map, &text.bytes).map_err(|stopped| Failure::text(&stopped, text))?;
    let mut warned: BTreeMap<u64, Vec<u32>> = BTreeMap::new();
    for warning in retimed.warnings {
        warned.entry(warning.line).or_default().push(warning.number);
    }
    let one = |caption: &Fared<'t>| row(map, kind, &text.name, caption, &mut warned).map_err(Failure::refused);
    read.iter().map(one).collect()
}

fn row<'t>(map: &Map, kind: Kind, file: &'t str, (caption, fate): &Fared<'t>, warned: &mut BTreeMap<u64, Vec<u32>>) -> Result<Row<'t>, Refused> {
    let mut row = Row { file, kind, line: caption.line, times: None, fate: "passed", new: None, stretch: None, cut: None, warnings: warned.remove(&caption.line).unwrap_or_default(), words: caption.words() };
    let (Times::Read { start, stop }, Some(fate)) = (caption.times, fate) else { return Ok(row) };
    row.times = Some([start, stop]);
    row.fate = if fate.is_dropped() {
        "dropped"
    } else if fate.is_shifted() {
        "shifted"
    } else {
        "clipped"
    };
    row.new = fate.moved(map, kind, start, stop)?;
    if let Fate::Kept { place, start_cut, end_cut } = fate {
        let length = |ticks: &u64| ticks_to_units_ceil(*ticks, map.timescale(), kind);
        (row.stretch, row.cut) = (Some(place + 1), Some([length(start_cut)?, length(end_cut)?]));
    }
    Ok(row)
}

impl Row<'_> {
    /// The line of JSON. Times are seconds; what does not apply is `null`.
    fn json(&self) -> String {
        let times = |times: Option<[u64; 2]>| times.map_or(["null".to_string(), "null".to_string()], |t| t.map(|units| self.seconds(units)));
        let stretch = self.stretch.map_or("null".to_string(), |k| k.to_string());
        let [[start, end], [new_start, new_end], [cut_start, cut_end]] = [self.times, self.new, self.cut].map(times);
        let warnings = format!("[{}]", self.warnings(","));
        let values = [quoted(self.file), self.line.to_string(), start, end, quoted(self.fate), new_start, new_end, stretch, cut_start, cut_end, warnings, quoted(&self.words)];
        let members: Vec<String> = HEAD.iter().zip(values).map(|(name, value)| format!("\"{name}\":{value}")).collect();
        format!("{{{}}}\n", members.join(","))
    }

    /// The line of a table. Times are as captions of the kind have them; what does not apply is empty.
    fn tsv(&self) -> String {
        let times = |times: Option<[u64; 2]>| times.map_or([String::new(), String::new()], |t| t.map(|units| self.kind.time(units)));
        let stretch = self.stretch.map_or(String::new(), |k| k.to_string());
        let [[start, end], [new_start, new_end], [cut_start, cut_end]] = [self.times, self.new, self.cut].map(times);
        let file = self.file.replace(|c: char| c.is_control(), " ");
        let values = [file, self.line.to_string(), start, end, self.fate.to_string(), new_start, new_end, stretch, cut_start, cut_end, self.warnings(" "), self.words.clone()];
        values.join("\t") + "\n"
    }

    fn seconds(&self, units: u64) -> String {
        let (a_second, width) = (self.kind.units(), if self.kind == Kind::Ass { 2 } else { 3 });
        format!("{}.{:0width$}", units / a_second, units % a_second)
    }

    fn warnings(&self, mark: &str) -> String {
        self.warnings.iter().map(u32::to_string).collect::<Vec<_>>().join(mark)
    }
}

/// A string of JSON.
fn quoted(text: &str) -> String {
    let mut out = String::from('"');
    for c in text.chars() {
        match c {
            '"' | '\\' => out.extend(['\\', c]),
            c if c < ' ' => out += &format!("\\u{:04x}", u32::from(c)),
            c => out.push(c),
        }
    }
    out + "\""
}
