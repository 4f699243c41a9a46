//! A film's packets: asked of ffprobe, or read from what it printed.
use crate::args::Args;
use crate::failure::{reason, Failure};
use crate::input;
use crate::progress::Progress;
use crate::stderr::say;
use retimer::film::{Film, FFPROBE};
use std::ffi::{OsStr, OsString};
use std::fs::File;
use std::path::Path;
use std::process::{Command, Stdio};

/// Bytes that are read of ffprobe's output: more than of the longest film that a sheet holds.
const MOST_PACKETS: u64 = 1 << 30;

/// The film of `--packets`, or of a file; with its name for messages.
pub fn read(args: &Args, film: Option<&OsStr>) -> Result<(String, Film), Failure> {
    let (name, json) = match (args.one("--packets"), film) {
        (Some(packets), _) => {
            let told = input::read(packets, MOST_PACKETS)?;
            (told.name, told.bytes)
        }
        (None, Some(film)) => (Path::new(film).display().to_string(), asked(Path::new(film))?),
        (None, None) => return Err(args.usage("name the film, or what ffprobe printed of it with --packets")),
    };
    let film = Film::from_ffprobe(&json).map_err(|fault| Failure::refused(format!("{name}: {fault}")))?;
    Ok((name, film))
}

/// What ffprobe prints of a film: one child process, which is handed the name as it is.
fn asked(film: &Path) -> Result<Vec<u8>, Failure> {
    let name = film.display().to_string();
    let there = File::open(film).and_then(|f| f.metadata()).map_err(|e| Failure::reading(&name, &e))?;
    if there.is_dir() {
        return Err(Failure::refused(format!("cannot read {name}: it is a folder")));
    }
    // no other protocol than that of files is meant by a name with a colon, and no option by one that begins with -
    let mut place = OsString::from("file:");
    place.push(film);
    let progress = Progress::new(format!("ffprobe reads {name}"), 0);
    let told = Command::new("ffprobe").args(FFPROBE).arg("-i").arg(place).stdin(Stdio::null()).output();
    drop(progress);
    let told = told.map_err(|e| Failure::refused(format!("cannot run ffprobe: {}: install ffmpeg, or run where it is installed\n  {}\nand say --packets play.json", reason(&e), line())))?;
    let said = String::from_utf8_lossy(&told.stderr);
    if !told.status.success() {
        let last = said.lines().last().unwrap_or("it says nothing");
        return Err(Failure::refused(format!("ffprobe can't read {name}: {last}")));
    }
    said.lines().for_each(|line| say(format_args!("ffprobe: {line}")));
    Ok(told.stdout)
}

/// The command line that `--packets` reads the output of.
pub fn line() -> String {
    format!("ffprobe {} play.mp4 >play.json", FFPROBE.join(" "))
}
