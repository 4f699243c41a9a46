//! `bobbincrag sheet`: the frame sheet of a film.
use crate::args::Args;
use crate::failure::Failure;
use crate::film;
use crate::input;
use crate::output;
use crate::stderr::say;
use retimer::film::{seconds, Film};
use retimer::Kind;
use std::path::PathBuf;

pub fn run(args: &Args) -> Result<(), Failure> {
    let film = args.words.first().map(|w| w.as_os_str());
    match (args.has("--packets"), film) {
        (false, None) => return Err(args.usage("name the film, or what ffprobe printed of it with --packets")),
        (true, Some(_)) => return Err(args.usage("it takes FILM or --packets, not both")),
        (false, Some(film)) if film == "-" => return Err(args.usage("a film is read from a file, not from standard input")),
        _ => input::once(args)?,
    }
    let outs: Vec<PathBuf> = args.one("-o").map(PathBuf::from).into_iter().collect();
    output::apart(args, &outs)?;
    let (name, film) = film::read(args, film)?;
    let sheet = film.sheet(args.has("--open-gop")).map_err(|fault| Failure::refused(format!("{name}: {fault}")))?;
    // the library is asked whether it is sound before it is stored
    let bytes = sheet.to_bytes().map_err(|refused| Failure::refused(format!("{refused} ({name})")))?;
    output::write(args.one("-o"), &bytes)?;
    told(&name, &film, sheet.frames.iter().filter(|f| f.sync).count());
    Ok(())
}

/// What was found, on standard error.
fn told(name: &str, film: &Film, sync: usize) {
    let length = Kind::Vtt.time(u64::try_from(u128::from(film.length()) * 1_000 / u128::from(film.timescale())).unwrap_or(u64::MAX));
    let (frames, ticks, keys) = (film.frames(), film.timescale(), film.keys());
    say(format_args!("{name}: {frames} frames, {ticks} ticks a second, {length}; a cut can begin at {sync} of {keys} key pictures"));
    if film.hidden() > 0 {
        say(format_args!("{name}: {} frames are left out: the film says that they are not shown", film.hidden()));
    }
    if film.first() != 0 {
        let (at, back) = (seconds(film.first(), ticks), seconds(film.first().saturating_neg(), ticks));
        say(format_args!("{name}: the first frame is shown at {at} s of the film: captions are counted from there; those that are counted from 0 are retimed with --delay {back}"));
    }
    if sync == 0 {
        say(format_args!("{name}: a cut can begin nowhere, so every trim is widened to the whole film"));
    }
}
