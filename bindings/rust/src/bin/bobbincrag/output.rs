//! Results: on standard output, or in files that are written whole or not at all.
//!
//! A file is first written under another name beside its place, and then takes its place in one step, so that one that stood there stays until then. All
//! are written before the first takes its place. What is no plain file, such as a pipe or a device, is written as it is, and so is a stream that is open already, such as /dev/stdout.
use crate::closed;
use crate::failure::{reason, Failure};
use std::ffi::OsStr;
use std::fs::{self, File, OpenOptions};
use std::io::Write;
use std::path::{Path, PathBuf};

/// Bytes on standard output.
pub fn print(bytes: &[u8]) -> Result<(), Failure> {
    if closed::standard_output() {
        return Err(Failure::refused("cannot write standard output: it is closed"));
    }
    let mut out = std::io::stdout().lock();
    let done = out.write_all(bytes).and_then(|()| out.flush());
    done.map_err(|e| Failure::refused(format!("cannot write standard output: {}", reason(&e))))
}

/// A file that is written but stands under another name yet. Dropped, it is removed.
struct Pending {
    file: File,
    written: PathBuf,
    place: PathBuf,
    shown: PathBuf,
}

impl Drop for Pending {
    fn drop(&mut self) {
        let _ = fs::remove_file(&self.written);
    }
}

/// Files that are written together.
#[derive(Default)]
pub struct Files {
    pending: Vec<Pending>,
    /// What is no plain file, as it was named, and its bytes.
    direct: Vec<(PathBuf, Vec<u8>)>,
    made: Option<Folder>,
}

/// A folder that was made; dropped, it is removed where it is empty.
struct Folder(PathBuf);

impl Drop for Folder {
    fn drop(&mut self) {
        let _ = fs::remove_dir(&self.0);
    }
}

impl Files {
    /// Makes a folder where there is none.
    pub fn folder(&mut self, path: &Path) -> Result<(), Failure> {
        if !path.is_dir() {
            fs::create_dir(path).map_err(|e| Failure::writing(path, reason(&e)))?;
            self.made = Some(Folder(path.to_path_buf()));
        }
        Ok(())
    }

    /// Writes a file beside its place.
    pub fn add(&mut self, path: &Path, bytes: &[u8]) -> Result<(), Failure> {
        let fails = |e: std::io::Error| Failure::writing(path, reason(&e));
        let place = led(path);
        if is_stream(&place) {
            self.direct.push((place, bytes.to_vec()));
            return Ok(());
        }
        match fs::metadata(&place) {
            Ok(there) if there.is_dir() => Err(Failure::writing(path, "it is a folder")),
            Ok(there) if !there.is_file() => {
                self.direct.push((place, bytes.to_vec()));
                Ok(())
            }
            Ok(there) => {
                // a file that may not be written is not replaced either
                OpenOptions::new().write(true).open(&place).map_err(fails)?;
                self.beside(path, place, bytes, Some(there.permissions())).map_err(fails)
            }
            Err(_) => self.beside(path, place, bytes, None).map_err(fails),
        }
    }

    fn beside(&mut self, path: &Path, place: PathBuf, bytes: &[u8], rights: Option<fs::Permissions>) -> std::io::Result<()> {
        let folder = place.parent().filter(|p| !p.as_os_str().is_empty()).unwrap_or(Path::new("."));
        let (written, file) = created(folder)?;
        let mut pending = Pending { file, written, place, shown: path.to_path_buf() };
        pending.file.write_all(bytes)?;
        if let Some(rights) = rights {
            pending.file.set_permissions(rights)?;
        }
        self.pending.push(pending);
        Ok(())
    }

    /// Lets every file take its place, once all are on the disk.
    pub fn done(mut self) -> Result<(), Failure> {
        for pending in &self.pending {
            pending.file.sync_all().map_err(|e| Failure::writing(&pending.shown, reason(&e)))?;
        }
        for (path, bytes) in &self.direct {
            to_stream(path, bytes).map_err(|e| Failure::writing(path, reason(&e)))?;
        }
        for pending in self.pending.drain(..) {
            fs::rename(&pending.written, &pending.place).map_err(|e| Failure::writing(&pending.shown, reason(&e)))?;
            std::mem::forget(self.made.take());
        }
        Ok(())
    }
}

/// Where a name leads: through links to the file that is to be written, there already or not, or to a stream.
fn led(path: &Path) -> PathBuf {
    let mut at = path.to_path_buf();
    // no more links than a system follows
    for _ in 0..40 {
        if is_stream(&at) {
            return at;
        }
        let Ok(next) = fs::read_link(&at) else { break };
        at = at.parent().unwrap_or(Path::new("")).join(next);
    }
    fs::canonicalize(&at).unwrap_or(at)
}

/// Whether a name is that of a stream that is open already.
fn is_stream(path: &Path) -> bool {
    ["/dev/stdout", "/dev/stderr", "/dev/fd", "/proc"].iter().any(|stream| path.starts_with(stream))
}

/// Bytes to what is no plain file, or behind what stands in an open stream already.
fn to_stream(path: &Path, bytes: &[u8]) -> std::io::Result<()> {
    match path.to_str() {
        Some("/dev/stdout") => std::io::stdout().lock().write_all(bytes).and_then(|()| std::io::stdout().lock().flush()),
        Some("/dev/stderr") => std::io::stderr().lock().write_all(bytes),
        _ => OpenOptions::new().append(true).open(path)?.write_all(bytes),
    }
}

/// Removes what interrupted calls have left in a folder: files of the form `.bobbincrag-PID-K` that no running process writes, and that nobody has written for a minute, since the folder may be
/// shared with other machines.
fn swept(folder: &Path) {
    let dead = |name: &str| {
        let pid = name.strip_prefix(".bobbincrag-")?.split_once('-')?.0;
        let known = Path::new("/proc/self").exists() && pid.parse::<u32>().is_ok();
        (known && !Path::new("/proc").join(pid).exists()).then_some(())
    };
    for entry in fs::read_dir(folder).into_iter().flatten().flatten() {
        let old = || entry.metadata().and_then(|m| m.modified()).ok()?.elapsed().ok().filter(|age| age.as_secs() >= 60);
        if entry.file_name().to_str().and_then(dead).is_some() && old().is_some() {
            let _ = fs::remove_file(entry.path());
        }
    }
}

/// A new file of a name that is free.
fn created(folder: &Path) -> std::io::Result<(PathBuf, File)> {
    swept(folder);
    let mut k = 0;
    loop {
        let path = folder.join(format!(".bobbincrag-{}-{k}", std::process::id()));
        match OpenOptions::new().write(true).create_new(true).open(&path) {
            Err(e) if e.kind() == std::io::ErrorKind::AlreadyExists && k < 1000 => k += 1,
            Err(e) => return Err(e),
            Ok(file) => return Ok((path, file)),
        }
    }
}

/// Bytes to a file, or to standard output where none is named, or `-`.
pub fn write(out: Option<&OsStr>, bytes: &[u8]) -> Result<(), Failure> {
    let Some(out) = out.filter(|o| *o != "-") else { return print(bytes) };
    let mut files = Files::default();
    files.add(Path::new(out), bytes)?;
    files.done()
}

/// Whether two names lead to the same file, or would, where there is none yet.
pub fn same(a: &Path, b: &Path) -> bool {
    match (placed(a), placed(b)) {
        (Some(a), Some(b)) => a == b || linked(&a, &b),
        _ => false,
    }
}

/// Where a name leads: of a file that is not there yet, its folder's place and its name.
fn placed(path: &Path) -> Option<PathBuf> {
    let path = led(path);
    let beside = || {
        let folder = path.parent().filter(|p| !p.as_os_str().is_empty()).unwrap_or(Path::new("."));
        Some(fs::canonicalize(folder).ok()?.join(path.file_name()?))
    };
    fs::canonicalize(&path).ok().or_else(beside)
}

#[cfg(unix)]
fn linked(a: &Path, b: &Path) -> bool {
    use std::os::unix::fs::MetadataExt;
    let key = |p: &Path| fs::metadata(p).map(|m| (m.dev(), m.ino())).ok();
    key(a).is_some() && key(a) == key(b)
}

#[cfg(not(unix))]
fn linked(_: &Path, _: &Path) -> bool {
    false
}

/// Usage, where an output is an input, which would be lost, or another output.
pub fn apart(args: &crate::args::Args, outs: &[PathBuf]) -> Result<(), Failure> {
    for (k, out) in outs.iter().enumerate() {
        let inputs = crate::input::NAMES.iter().chain(&["--ffmpeg"]).flat_map(|name| args.all(name)).chain(args.words.iter().map(|w| w.as_os_str()));
        if inputs.filter(|i| *i != "-").any(|i| same(out, Path::new(i))) {
            return Err(args.usage(format!("{} is read, and would be lost: write to another file", out.display())));
        }
        if outs[..k].iter().any(|other| other == out || same(other, out)) {
            return Err(args.usage(format!("{} is written twice", out.display())));
        }
    }
    Ok(())
}
