//! Files that are read, and standard input.
use crate::args::Args;
use crate::failure::Failure;
use crate::stderr::say;
use retimer::{Encoding, Kind, Refused};
use std::ffi::OsStr;
use std::fs::File;
use std::io::Read;
use std::path::Path;

/// Bytes that are read of a sheet, a list, and a text: more than of any that is accepted.
pub const MOST_SHEET: u64 = 1 << 26;
pub const MOST_LIST: u64 = 1 << 24;
pub const MOST_TEXT: u64 = (1 << 30) + 1;

/// The options that name files to be read.
pub const NAMES: [&str; 5] = ["--sheet", "--list", "--map", "--subs", "--packets"];

pub struct Input {
    /// As it is named in messages.
    pub name: String,
    pub bytes: Vec<u8>,
}

/// Standard input can be read once: `-` stands at most once.
pub fn once(args: &Args) -> Result<(), Failure> {
    match NAMES.iter().flat_map(|n| args.all(n)).filter(|v| *v == "-").count() {
        0 | 1 => Ok(()),
        _ => Err(args.usage("- is standard input, which can be read once")),
    }
}

pub fn read(name: &OsStr, most: u64) -> Result<Input, Failure> {
    let mut bytes = Vec::new();
    if name == "-" {
        let name = "standard input".to_string();
        std::io::stdin().lock().take(most).read_to_end(&mut bytes).map_err(|e| Failure::reading(&name, &e))?;
        return Ok(Input { name, bytes });
    }
    let path = Path::new(name);
    let name = path.display().to_string();
    from_file(path, most, &mut bytes).map_err(|e| Failure::reading(&name, &e))?;
    Ok(Input { name, bytes })
}

fn from_file(path: &Path, most: u64, bytes: &mut Vec<u8>) -> std::io::Result<()> {
    let file = File::open(path)?;
    let length = file.metadata()?.len().min(most);
    bytes.reserve_exact(length as usize + 1);
    file.take(most).read_to_end(bytes)?;
    Ok(())
}

/// A caption file, in the encoding that `--encoding` names. What is written is UTF-8.
pub fn captions(args: &Args, name: &OsStr) -> Result<Input, Failure> {
    let encoding = args.one("--encoding").map(|e| named_encoding(args, e)).transpose()?;
    let long = |name: &str| Failure::refused(format!("{} ({name} has more than 1,073,741,824 bytes: split it)", Refused(16)));
    let length = std::fs::metadata(Path::new(name)).ok().filter(|m| m.is_file() && name != "-").map_or(0, |m| m.len());
    if length >= MOST_TEXT {
        return Err(long(&Path::new(name).display().to_string()));
    }
    let text = read(name, MOST_TEXT)?;
    let Some(encoding) = encoding.filter(|e| *e != Encoding::Utf8) else {
        return if text.bytes.len() as u64 >= MOST_TEXT { Err(long(&text.name)) } else { Ok(text) };
    };
    let bytes = encoding.decode(&text.bytes).map_err(|at| Failure::refused(format!("{} can't be read as {encoding}: byte {at} is none of its characters", text.name)))?;
    say(format_args!("{}: read as {encoding}; what is written is UTF-8", text.name));
    Ok(Input { bytes, ..text })
}

fn named_encoding(args: &Args, name: &OsStr) -> Result<Encoding, Failure> {
    let names: Vec<&str> = Encoding::ALL.iter().map(|e| e.name()).collect();
    let read = name.to_str().and_then(|n| n.parse().ok());
    read.ok_or_else(|| args.usage(format!("--encoding is one of {}, not {}", names.join(", "), name.to_string_lossy())))
}

/// What to do with a file that is not UTF-8 (20).
pub fn not_utf8(text: &Input) -> String {
    let name = &text.name;
    match Encoding::of(&text.bytes) {
        Some(encoding) => format!("{name} is not UTF-8: it looks like {encoding}. Save it as UTF-8; captions can be read by --encoding {encoding}"),
        None => format!("{name} is not UTF-8, and looks like nothing that --encoding can read: save it as UTF-8"),
    }
}

/// The kind that `--kind` names.
pub fn named_kind(args: &Args) -> Result<Option<Kind>, Failure> {
    let Some(name) = args.one("--kind") else { return Ok(None) };
    let kind = name.to_str().and_then(Kind::named);
    kind.map(Some).ok_or_else(|| args.usage(format!("--kind is ass, srt or vtt, not {}", name.to_string_lossy())))
}

/// The kind of a caption file: by `--kind`, or by its ending.
pub fn kind_of(args: &Args, name: &OsStr) -> Result<Kind, Failure> {
    if let Some(kind) = named_kind(args)? {
        return Ok(kind);
    }
    let shown = if name == "-" { "standard input".into() } else { name.to_string_lossy() };
    Kind::of_path(Path::new(name)).ok_or_else(|| args.usage(format!("the ending of {shown} tells no kind: say --kind ass, srt or vtt")))
}
