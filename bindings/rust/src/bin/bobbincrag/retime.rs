//! `bobbincrag retime`: caption files through a cut.
use crate::args::Args;
use crate::cut;
use crate::failure::{refused_text, Failure};
use crate::input::{self, Input};
use crate::output::{self, Files};
use crate::progress::Progress;
use crate::report::Report;
use crate::shift;
use retimer::{retime, Kind, Map, Retimed};
use std::ffi::OsStr;
use std::path::{Path, PathBuf};

/// Where the texts go.
enum Out {
    Standard,
    File(PathBuf),
    /// The folder, and a name for each text.
    Folder(PathBuf, Vec<PathBuf>),
}

pub fn run(args: &Args) -> Result<(), Failure> {
    cut::named(args)?;
    let subs: Vec<&OsStr> = args.all("--subs").collect();
    let kinds = subs.iter().map(|s| input::kind_of(args, s)).collect::<Result<Vec<Kind>, _>>()?;
    let out = out_of(args, &subs)?;
    apart(args, &out)?;
    let mut shift = shift::of(args)?;
    let map = shift.moved(cut::read(args)?.map)?;
    let texts = subs.iter().map(|s| input::captions(args, s)).collect::<Result<Vec<Input>, _>>()?;
    shift.holds(&map, &texts, &kinds)?;
    let retimed = all(&map, &texts, &kinds)?;
    let reports: Vec<Report> = texts.iter().zip(&kinds).zip(&retimed).map(|((t, kind), r)| Report::new(&t.name, *kind, &t.bytes, r)).collect();
    write(args, out, &retimed, &reports)?;
    shift.say();
    reports.iter().for_each(Report::say);
    Ok(())
}

/// Every text retimed; where any is refused, all that are.
fn all(map: &Map, texts: &[Input], kinds: &[Kind]) -> Result<Vec<Retimed>, Failure> {
    let (mut done, mut refused) = (Vec::new(), Vec::new());
    for (text, kind) in texts.iter().zip(kinds) {
        let _progress = Progress::new(format!("retiming {}", text.name), 0);
        match retime(*kind, map, &text.bytes) {
            Ok(retimed) => done.push(retimed),
            Err(stopped) => refused.push(refused_text(&stopped, text)),
        }
    }
    if refused.is_empty() {
        Ok(done)
    } else {
        Err(Failure::Refused(refused))
    }
}

fn out_of(args: &Args, subs: &[&OsStr]) -> Result<Out, Failure> {
    if args.one("--warnings").is_some_and(|w| w == "-") {
        return Err(args.usage("--warnings needs a file: standard output is for captions alone"));
    }
    match (args.one("-o").filter(|o| *o != "-"), subs.len()) {
        (_, 0) => Err(args.usage("name the captions with --subs")),
        (None, 1) => Ok(Out::Standard),
        (None, _) => Err(args.usage("several caption files need a folder to be written to: name it with -o")),
        (Some(out), 1) if is_folder(out) => folder_of(args, out.into(), subs),
        (Some(out), 1) => Ok(Out::File(out.into())),
        (Some(out), _) => folder_of(args, out.into(), subs),
    }
}

/// A folder that is there, or a name that ends in a slash.
fn is_folder(out: &OsStr) -> bool {
    out.as_encoded_bytes().ends_with(b"/") || Path::new(out).is_dir()
}

/// Several texts have names of their own, and no two the same.
fn folder_of(args: &Args, folder: PathBuf, subs: &[&OsStr]) -> Result<Out, Failure> {
    if folder.exists() && !folder.is_dir() {
        return Err(args.usage(format!("{} is no folder, which several caption files need", folder.display())));
    }
    let mut names: Vec<PathBuf> = Vec::new();
    for sub in subs {
        let name = Path::new(sub).file_name().filter(|_| *sub != "-").map(PathBuf::from);
        let name = name.ok_or_else(|| args.usage(format!("{} has no name to be written under in a folder", sub.to_string_lossy())))?;
        if names.contains(&name) {
            return Err(args.usage(format!("two caption files have the name {}", name.display())));
        }
        names.push(name);
    }
    Ok(Out::Folder(folder, names))
}

/// No output is an input, nor two outputs the same.
fn apart(args: &Args, out: &Out) -> Result<(), Failure> {
    let mut outs: Vec<PathBuf> = match out {
        Out::Standard => Vec::new(),
        Out::File(path) => vec![path.clone()],
        Out::Folder(folder, names) => names.iter().map(|n| folder.join(n)).collect(),
    };
    outs.extend(args.one("--warnings").map(PathBuf::from));
    output::apart(args, &outs)
}

fn write(args: &Args, out: Out, retimed: &[Retimed], reports: &[Report]) -> Result<(), Failure> {
    let mut files = Files::default();
    match &out {
        Out::Standard => {}
        Out::File(path) => files.add(path, &retimed[0].text)?,
        Out::Folder(folder, names) => {
            files.folder(folder)?;
            for (name, text) in names.iter().zip(retimed) {
                files.add(&folder.join(name), &text.text)?;
            }
        }
    }
    if let Some(path) = args.one("--warnings") {
        files.add(Path::new(path), reports.iter().map(Report::table).collect::<String>().as_bytes())?;
    }
    if let Out::Standard = out {
        output::print(&retimed[0].text)?;
    }
    files.done()
}
