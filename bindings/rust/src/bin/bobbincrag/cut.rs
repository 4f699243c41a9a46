//! The cut that a command is about: a sheet and a list, or a map as the cutter stores it.
use crate::args::Args;
use crate::failure::Failure;
use crate::input::{self, Input};
use crate::stderr::say;
use retimer::{faults, About, Direction, Map, Refused, Sheet};

pub struct Cut {
    pub map: Map,
    /// What a map's JSON says beside the map, with an empty path where that is not known.
    pub about: About,
    /// The sheet, where the cut is told by one.
    sheet: Option<Input>,
}

impl Cut {
    /// The ticks of the whole recording, which a map does not tell.
    pub fn recording(&self) -> Result<Option<u64>, Failure> {
        let ticks = |sheet: &Input| Sheet::from_bytes(&sheet.bytes).map(|s| s.durations.iter().sum());
        self.sheet.as_ref().map(ticks).transpose().map_err(Failure::refused)
    }
}

/// Whether the options name a cut in one way.
pub fn named(args: &Args) -> Result<(), Failure> {
    let stored = args.has("--map");
    match (stored, args.has("--sheet")) {
        (false, false) => Err(args.usage("name the frame sheet with --sheet")),
        (true, true) => Err(args.usage("--map stands in place of --sheet and --list")),
        (true, false) if args.has("--list") || args.has("--inward") => Err(args.usage("--map stands in place of --sheet, --list and --inward")),
        _ => input::once(args),
    }
}

pub fn direction(args: &Args) -> Direction {
    if args.has("--inward") {
        Direction::Inward
    } else {
        Direction::Outward
    }
}

pub fn read(args: &Args) -> Result<Cut, Failure> {
    if let Some(name) = args.one("--map") {
        let json = input::read(name, input::MOST_TEXT)?;
        let (map, about) = Map::from_json(&json.bytes).map_err(|refused| Failure::refused(format!("{refused} ({})", json.name)))?;
        return Ok(Cut { map, about, sheet: None });
    }
    let sheet = input::read(args.one("--sheet").unwrap_or_default(), input::MOST_SHEET)?;
    let list = args.one("--list").map(|name| input::read(name, input::MOST_LIST)).transpose()?;
    let bytes = list.as_ref().map_or(&[][..], |l| &l.bytes);
    match Map::new(&sheet.bytes, bytes, direction(args)) {
        Ok(map) => {
            say_whole(list.as_ref());
            let about = About::of_sheet(&sheet.bytes, "").ok_or_else(|| Failure::refused(Refused(11)))?;
            Ok(Cut { map, about, sheet: Some(sheet) })
        }
        Err(refused) => Err(placed(args, refused, &sheet, list.as_ref())),
    }
}

/// A line where nothing is cut away.
fn say_whole(list: Option<&Input>) {
    match list {
        None => say(format_args!("no list: the whole recording is kept")),
        Some(list) if String::from_utf8_lossy(&list.bytes).trim().is_empty() => say(format_args!("{} is blank: the whole recording is kept", list.name)),
        Some(_) => {}
    }
}

/// A refusal of sheet, list or cut, with the first place that has it.
fn placed(args: &Args, refused: Refused, sheet: &Input, list: Option<&Input>) -> Failure {
    let bytes = list.map_or(&[][..], |l| &l.bytes);
    let name = list.map_or("no list", |l| &l.name);
    let of_sheet = || faults::in_sheet(&sheet.bytes).into_iter().map(|f| (&*sheet.name, f));
    let of_list = || faults::in_list(bytes).into_iter().map(|f| (name, f));
    let of_cut = || faults::in_cut(&sheet.bytes, bytes, direction(args)).into_iter().map(|f| (name, f));
    let same = |f: &(&str, faults::Fault)| f.1.refused == refused;
    let found = of_sheet().find(same).or_else(|| of_list().find(same)).or_else(|| of_cut().find(same));
    let line = found.map_or(refused.to_string(), |(name, fault)| format!("{refused} ({name}, {})", fault.place));
    match (refused.number(), list) {
        (20, Some(list)) => Failure::Refused(vec![line, input::not_utf8(list)]),
        _ => Failure::refused(line),
    }
}
