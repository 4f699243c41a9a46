//! `bobbincrag picture`: what became of the captions, drawn.
use crate::args::Args;
use crate::cut;
use crate::failure::Failure;
use crate::input;
use crate::output;
use crate::stderr::say;
use crate::subs::{self, Fared};
use retimer::captions::{Caption, Times};
use retimer::picture::{self, svg, Drawn, New, Stretch};
use retimer::{retime, Fate, Kind, Map, Refused, Warning};
use std::collections::BTreeMap;
use std::ffi::OsStr;
use std::path::{Path, PathBuf};

pub fn run(args: &Args) -> Result<(), Failure> {
    cut::named(args)?;
    let name = args.one("--subs").ok_or_else(|| args.usage("name the captions with --subs"))?;
    let kind = input::kind_of(args, name)?;
    let outs: Vec<PathBuf> = args.one("-o").map(PathBuf::from).into_iter().collect();
    output::apart(args, &outs)?;
    let cut = cut::read(args)?;
    let text = input::captions(args, name)?;
    let retimed = retime(kind, &cut.map, &text.bytes).map_err(|stopped| Failure::text(&stopped, &text))?;
    let read = subs::fates(&cut.map, kind, &text)?;
    let scale = Scale::of(&cut.map, kind);
    let captions = drawn(&scale, &read, &retimed.warnings).map_err(Failure::refused)?;
    let recording = cut.recording()?.map(|ticks| scale.ticks(ticks));
    let drawing = svg(&picture::Cut { title: &title(name), timescale: scale.timescale, recording, segments: &scale.stretches(), captions: &captions });
    output::write(args.one("-o"), drawing.as_bytes())?;
    say(format_args!("{}: {}", text.name, retimed.counts));
    Ok(())
}

/// The name of the captions' file.
fn title(name: &OsStr) -> String {
    match Path::new(name).file_name() {
        Some(file) if name != "-" => file.to_string_lossy().into_owned(),
        _ => "standard input".to_string(),
    }
}

/// A recording's ticks below this number a second are too coarse to tell a thousandth.
const COARSE: u32 = 2_000;
/// Parts of such a tick.
const PARTS: u32 = 1_000;

/// The ticks that are drawn: those of the recording, or parts of them, so that every time can be shown as it is written.
struct Scale<'m> {
    map: &'m Map,
    kind: Kind,
    parts: u32,
    /// Parts a second.
    timescale: u32,
}

impl Scale<'_> {
    fn of(map: &Map, kind: Kind) -> Scale<'_> {
        let parts = if map.timescale() < COARSE { PARTS } else { 1 };
        Scale { map, kind, parts, timescale: map.timescale() * parts }
    }

    /// Ticks of the recording.
    fn ticks(&self, ticks: u64) -> u64 {
        ticks.saturating_mul(self.parts.into())
    }

    /// A time as it is written, in units of its kind.
    fn units(&self, units: u64) -> u64 {
        let ticks = u128::from(units) * u128::from(self.timescale) / u128::from(self.kind.units());
        ticks.try_into().unwrap_or(u64::MAX)
    }

    fn stretches(&self) -> Vec<Stretch> {
        let stretch = |s: retimer::Segment| Stretch { source: self.ticks(s.source), output: self.ticks(s.output), duration: self.ticks(s.duration) };
        self.map.segments().map(stretch).collect()
    }

    /// Where a kept caption is, as it is written.
    fn kept(&self, fate: &Fate, times: (u64, u64)) -> Result<Option<New>, Refused> {
        let (Fate::Kept { place, start_cut, end_cut }, Some([start, end])) = (fate, fate.moved(self.map, self.kind, times.0, times.1)?) else { return Ok(None) };
        Ok(Some(New { stretch: *place, start: self.units(start), end: self.units(end), torn: (*start_cut > 0, *end_cut > 0) }))
    }
}

/// The captions as they are drawn.
fn drawn(scale: &Scale, read: &[Fared<'_>], warnings: &[Warning]) -> Result<Vec<Drawn>, Refused> {
    let mut warned: BTreeMap<u64, Vec<u64>> = BTreeMap::new();
    for warning in warnings {
        warned.entry(warning.line).or_default().push(warning.number.into());
    }
    let one = |(caption, fate): &Fared<'_>| one(scale, caption, fate.as_ref(), warned.remove(&caption.line).unwrap_or_default());
    read.iter().map(one).collect()
}

/// One caption; where its times are not looked for it passes, and has none.
fn one(scale: &Scale, caption: &Caption<'_>, fate: Option<&Fate>, warnings: Vec<u64>) -> Result<Drawn, Refused> {
    let times = match caption.times {
        Times::Read { start, stop } => (start, stop),
        Times::Passed { .. } => (0, 0),
    };
    let (fate, new) = match fate {
        None => (picture::Fate::Passed, None),
        Some(Fate::Dropped(_)) => (picture::Fate::Dropped, None),
        Some(kept) if kept.is_shifted() => (picture::Fate::Shifted, scale.kept(kept, times)?),
        Some(kept) => (picture::Fate::Clipped, scale.kept(kept, times)?),
    };
    Ok(Drawn { line: caption.line, start: scale.units(times.0), end: scale.units(times.1), fate, new, warnings, words: caption.words() })
}
