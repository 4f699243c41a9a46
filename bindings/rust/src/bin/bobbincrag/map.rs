//! `bobbincrag map`: the map of a cut, as numbers or as JSON.
use crate::args::Args;
use crate::cut;
use crate::failure::Failure;
use crate::film;
use crate::output;
use crate::stderr::say;
use retimer::{About, Map, Refused};
use std::ffi::OsStr;
use std::fs;
use std::path::{Path, PathBuf};

pub fn run(args: &Args) -> Result<(), Failure> {
    cut::named(args)?;
    match (args.has("--ffmpeg"), args.has("--json"), args.has("--packets")) {
        (true, true, _) => return Err(args.usage("it takes --json or --ffmpeg, not both")),
        (false, _, true) => return Err(args.usage("--packets tells of the film of --ffmpeg")),
        _ => {}
    }
    let outs: Vec<PathBuf> = args.one("-o").map(PathBuf::from).into_iter().collect();
    output::apart(args, &outs)?;
    let cut = cut::read(args)?;
    let text = match (args.one("--json"), args.one("--ffmpeg")) {
        (Some(path), _) => {
            // a path that is not UTF-8 can't stand in JSON (20)
            let input = path.to_str().ok_or_else(|| Failure::refused(Refused(20)))?.to_string();
            let bytes = input.len();
            cut.map.to_json(&About { input, ..cut.about }).map_err(|refused| match refused.number() {
                16 => Failure::refused(format!("{refused} (the path has {bytes} bytes, at most 1,024 can stand there)")),
                _ => Failure::refused(refused),
            })?
        }
        (None, Some(film)) => list(args, film, &cut.map)?,
        (None, None) => numbers(&cut.map),
    };
    output::write(args.one("-o"), text.as_bytes())
}

/// The ticks a second, and six numbers a segment.
fn numbers(map: &Map) -> String {
    let mut text = format!("timescale {}\n", map.timescale());
    for row in map.numbers().chunks(6) {
        text += &row.iter().map(u64::to_string).collect::<Vec<_>>().join(" ");
        text.push('\n');
    }
    text
}

/// The endings of program and transport streams, which have no index.
const SEARCHED_ROUGHLY: [&str; 7] = ["ts", "m2ts", "mts", "mpg", "mpeg", "vob", "tod"];

/// The list by which ffmpeg cuts a film.
fn list(args: &Args, film: &OsStr, map: &Map) -> Result<String, Failure> {
    let (name, packets) = film::read(args, Some(film))?;
    let place = listed(Path::new(film), args.one("-o").map(Path::new));
    let written = place.to_str().filter(|p| !p.contains(['\n', '\r']));
    let written = written.ok_or_else(|| Failure::refused(format!("the name {} can't stand in a list: give the film another", place.display())))?;
    let refused = |fault| Failure::refused(format!("{name}: {fault}"));
    let text = packets.concat(map, written).map_err(refused)?;
    if SEARCHED_ROUGHLY.iter().any(|ending| Path::new(film).extension().is_some_and(|e| e.eq_ignore_ascii_case(ending))) {
        let film = film.to_string_lossy();
        say(format_args!("{film}: ffmpeg does not find key pictures exactly in such a file, and frames may be missing: store it anew, `ffmpeg -i {film} -c copy NEW.mkv`, and take that"));
    }
    for stretch in packets.crowded(map).map_err(refused)? {
        say(format_args!("{name}: key pictures stand so close behind the beginning of stretch {stretch} that ffmpeg may begin it at a later one: look at the cut"));
    }
    Ok(text)
}

/// The film's name as it is found from the folder of the list.
fn listed(film: &Path, list: Option<&Path>) -> PathBuf {
    let folder = list.and_then(Path::parent).filter(|p| !p.as_os_str().is_empty());
    match (folder.map(fs::canonicalize), fs::canonicalize(film)) {
        (Some(Ok(folder)), Ok(place)) if film.is_relative() => place.strip_prefix(&folder).map_or(place.clone(), Path::to_path_buf),
        _ => film.to_path_buf(),
    }
}
