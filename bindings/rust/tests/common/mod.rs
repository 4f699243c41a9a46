//! What the tests of the command share: runs of it, folders of their own, the example play, random numbers, and frame sheets by docs/SHEET.md.
#![allow(dead_code)]
use std::io::Write;
use std::path::PathBuf;
use std::process::{Command, Output, Stdio};
use std::sync::atomic::{AtomicUsize, Ordering};

pub const COMMAND: &str = env!("CARGO_BIN_EXE_bobbincrag");

/// What a run left: its status, standard output, and standard error as text.
#[derive(Debug)]
pub struct Ran {
    pub status: i32,
    pub out: Vec<u8>,
    pub err: String,
}

impl Ran {
    pub fn text(&self) -> &str {
        std::str::from_utf8(&self.out).unwrap()
    }

    /// The status, and lines that stand on standard error.
    #[track_caller]
    pub fn says(&self, status: i32, lines: &[&str]) -> &Ran {
        assert_eq!(self.status, status, "{self:?}");
        for line in lines {
            assert!(self.err.lines().any(|l| l == *line), "no line {line:?} in\n{}", self.err);
        }
        self
    }

    /// Refused, or a usage error: nothing on standard output.
    #[track_caller]
    pub fn fails(&self, status: i32, lines: &[&str]) -> &Ran {
        assert_eq!(self.text(), "");
        self.says(status, lines)
    }
}

pub fn ran(output: Output) -> Ran {
    Ran { status: output.status.code().unwrap_or(-1), out: output.stdout, err: String::from_utf8_lossy(&output.stderr).into_owned() }
}

/// A run with these words and nothing on standard input.
pub fn run(words: &[&str]) -> Ran {
    ran(Command::new(COMMAND).args(words).stdin(Stdio::null()).output().unwrap())
}

/// A run with bytes on standard input.
pub fn run_with(words: &[&str], input: &[u8]) -> Ran {
    let mut child = Command::new(COMMAND).args(words).stdin(Stdio::piped()).stdout(Stdio::piped()).stderr(Stdio::piped()).spawn().unwrap();
    let mut pipe = child.stdin.take().unwrap();
    let bytes = input.to_vec();
    let writer = std::thread::spawn(move || {
        let _ = pipe.write_all(&bytes);
    });
    let output = child.wait_with_output().unwrap();
    writer.join().unwrap();
    ran(output)
}

/// A file of the repository.
pub fn file(path: &str) -> String {
    format!("{}/../../{path}", env!("CARGO_MANIFEST_DIR"))
}

pub fn read(path: &str) -> Vec<u8> {
    std::fs::read(path).unwrap_or_else(|e| panic!("{path}: {e}"))
}

/// A file of the example play.
pub fn play(kind: &str, name: &str) -> String {
    file(&format!("examples/play/{kind}/{name}"))
}

/// The words for the cut of the example play.
pub fn cut() -> Vec<String> {
    ["--sheet", &play("ass", "sheet.bin"), "--list", &play("ass", "trim.txt")].map(String::from).to_vec()
}

/// A command with the example play's cut, and more words.
pub fn run_play(command: &str, more: &[&str]) -> Ran {
    let cut = cut();
    let words: Vec<&str> = [command].into_iter().chain(cut.iter().map(String::as_str)).chain(more.iter().copied()).collect();
    run(&words)
}

/// A folder of a test's own, removed at its end.
pub struct Folder(PathBuf);

impl Folder {
    pub fn new() -> Folder {
        static COUNT: AtomicUsize = AtomicUsize::new(0);
        let name = format!("bobbincrag-test-{}-{}", std::process::id(), COUNT.fetch_add(1, Ordering::Relaxed));
        let path = std::env::temp_dir().join(name);
        std::fs::create_dir(&path).unwrap();
        Folder(path)
    }

    pub fn path(&self, name: &str) -> String {
        self.0.join(name).to_str().unwrap().to_string()
    }

    pub fn write(&self, name: &str, bytes: impl AsRef<[u8]>) -> String {
        let path = self.path(name);
        std::fs::write(&path, bytes).unwrap();
        path
    }

    pub fn read(&self, name: &str) -> Vec<u8> {
        read(&self.path(name))
    }

    /// The names in it.
    pub fn names(&self) -> Vec<String> {
        let mut names: Vec<String> = std::fs::read_dir(&self.0).unwrap().map(|e| e.unwrap().file_name().into_string().unwrap()).collect();
        names.sort();
        names
    }
}

impl Drop for Folder {
    fn drop(&mut self) {
        let _ = std::fs::remove_dir_all(&self.0);
    }
}

/// Random numbers from a seed (splitmix64).
pub struct Random(pub u64);

impl Random {
    pub fn next(&mut self) -> u64 {
        self.0 = self.0.wrapping_add(0x9E37_79B9_7F4A_7C15);
        let z = (self.0 ^ self.0 >> 30).wrapping_mul(0xBF58_476D_1CE4_E5B9);
        let z = (z ^ z >> 27).wrapping_mul(0x94D0_49BB_1331_11EB);
        z ^ z >> 31
    }

    pub fn below(&mut self, n: u64) -> u64 {
        self.next() % n
    }

    /// True once in n times.
    pub fn once_in(&mut self, n: u64) -> bool {
        self.below(n) == 0
    }

    pub fn of<'a, T: ?Sized>(&mut self, all: &[&'a T]) -> &'a T {
        all[self.below(all.len() as u64) as usize]
    }
}

/// The words of a sheet by docs/SHEET.md: n frames in order of 1,001 ticks, 30,000 a second, sync every `sync` frames.
pub fn words(n: u32, sync: u32, long: bool) -> Vec<u32> {
    let (per, size) = if long { (42, 3) } else { (63, 2) };
    let mut words = vec![0u32; 128 * (1 + n.div_ceil(per)) as usize];
    words[1..6].copy_from_slice(&[30_000, n, 30_000, 1_001, long.into()]);
    for i in 0..n {
        let at = (128 * (1 + i / per) + 1 + size * (i % per)) as usize;
        words[at] = i | u32::from(i % sync == 0) << 31;
        words[at + 1] = 1_001;
    }
    (0..words.len() / 128).for_each(|b| seal(&mut words, b));
    words
}

pub fn seal(words: &mut [u32], b: usize) {
    words[128 * b] = b as u32;
    words[128 * b + 127] = words[128 * b..128 * b + 127].iter().fold(0, |a, w| a.wrapping_add(*w));
}

pub fn bytes(words: &[u32]) -> Vec<u8> {
    words.iter().flat_map(|w| w.to_le_bytes()).collect()
}

pub fn sheet(n: u32, sync: u32) -> Vec<u8> {
    bytes(&words(n, sync, false))
}
