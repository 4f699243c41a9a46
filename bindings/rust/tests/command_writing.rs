//! Writes that fail: a clear sentence, status 1, the file that was there, and nothing left behind.
#![cfg(target_os = "linux")]
mod common;

use common::{cut, play, ran, read, run_play, Folder, COMMAND};
use std::process::{Command, Stdio};

fn subs() -> String {
    play("srt", "subs.srt")
}

/// A device is written as it is, and never replaced.
#[test]
fn a_full_disk() {
    run_play("retime", &["--subs", &subs(), "-o", "/dev/full"]).fails(1, &["cannot write /dev/full: No space left on device"]);
    run_play("map", &["-o", "/dev/full"]).fails(1, &["cannot write /dev/full: No space left on device"]);
    use std::os::unix::fs::FileTypeExt;
    assert!(std::fs::metadata("/dev/full").unwrap().file_type().is_char_device());
    let full = std::fs::OpenOptions::new().write(true).open("/dev/full").unwrap();
    let output = Command::new(COMMAND).arg("retime").args(cut()).args(["--subs", &subs()]).stdout(full).output().unwrap();
    assert_eq!((output.status.code(), String::from_utf8(output.stderr).unwrap().as_str()), (Some(1), "cannot write standard output: No space left on device\n"));
    let folder = Folder::new();
    run_play("retime", &["--subs", &subs(), "-o", &folder.path("out.srt"), "--warnings", "/dev/full"]).fails(1, &["cannot write /dev/full: No space left on device"]);
    assert!(folder.names().is_empty());
    assert_eq!(run_play("retime", &["--subs", &subs(), "-o", "/dev/null"]).status, 0);
}

/// A file that would grow above a limit of 1,024 bytes: the write fails in its middle.
#[test]
fn in_the_middle() {
    let folder = Folder::new();
    let out = folder.write("out.srt", "old");
    let (a, b) = (folder.path("a"), folder.path("b"));
    std::fs::create_dir(&a).unwrap();
    std::fs::write(format!("{a}/subs.ass"), "old").unwrap();
    let limited = |more: &[&str]| {
        let line = "trap '' XFSZ; ulimit -f 1; exec \"$0\" \"$@\"";
        ran(Command::new("bash").args(["-c", line, COMMAND, "retime"]).args(cut()).args(more).output().unwrap())
    };
    limited(&["--subs", &subs(), "-o", &out]).fails(1, &[&format!("cannot write {out}: File too large")]);
    assert_eq!((folder.read("out.srt"), folder.names()), (b"old".to_vec(), vec!["a".to_string(), "out.srt".to_string()]));
    let all = ["--subs", &play("ass", "subs.ass"), &subs(), "-o"];
    limited(&[&all[..], &[&a]].concat()).fails(1, &[&format!("cannot write {a}/subs.ass: File too large")]);
    assert_eq!((read(&format!("{a}/subs.ass")), std::fs::read_dir(&a).unwrap().count()), (b"old".to_vec(), 1));
    // a folder that was made for them goes too
    limited(&[&all[..], &[&b]].concat()).fails(1, &[&format!("cannot write {b}/subs.ass: File too large")]);
    assert_eq!(folder.names(), ["a", "out.srt"]);
}

/// Places that can't be written.
#[test]
fn no_such_place() {
    let folder = Folder::new();
    let (plain, below) = (folder.write("plain", "x"), folder.path("plain/out.srt"));
    let (missing, inside) = (folder.path("none/out.srt"), folder.path("folder"));
    std::fs::create_dir(&inside).unwrap();
    for (out, why) in [(&below, "Not a directory"), (&missing, "No such file or directory"), (&inside, "it is a folder")] {
        if *out != inside {
            run_play("retime", &["--subs", &subs(), "-o", out]).fails(1, &[&format!("cannot write {out}: {why}")]);
        }
        run_play("retime", &["--subs", &subs(), "--warnings", out, "-o", &folder.path("fine.srt")]).fails(1, &[&format!("cannot write {out}: {why}")]);
        run_play("map", &["-o", out]).fails(1, &[&format!("cannot write {out}: {why}")]);
    }
    let several = folder.path("plain/out");
    run_play("retime", &["--subs", &subs(), &play("vtt", "subs.vtt"), "-o", &several]).fails(1, &[&format!("cannot write {several}: Not a directory")]);
    assert_eq!((folder.read("plain"), folder.names()), (b"x".to_vec(), vec!["folder".to_string(), "plain".to_string()]));
    assert_eq!(read(&plain), b"x");
    // one of several places is a folder: none is written
    let out = folder.path("out");
    std::fs::create_dir_all(format!("{out}/subs.vtt")).unwrap();
    run_play("retime", &["--subs", &subs(), &play("vtt", "subs.vtt"), "-o", &out]).fails(1, &[&format!("cannot write {out}/subs.vtt: it is a folder")]);
    assert_eq!(std::fs::read_dir(&out).unwrap().count(), 1);
}

/// A reader that goes away: no panic, status 1.
#[test]
fn a_closed_pipe() {
    let mut child = Command::new(COMMAND).arg("retime").args(cut()).args(["--subs", "-", "--kind", "srt"]).stdin(Stdio::piped()).stdout(Stdio::piped()).stderr(Stdio::piped()).spawn().unwrap();
    drop(child.stdout.take());
    let mut input = child.stdin.take().unwrap();
    std::io::Write::write_all(&mut input, &read(&subs())).unwrap();
    drop(input);
    let output = child.wait_with_output().unwrap();
    assert_eq!((output.status.code(), String::from_utf8(output.stderr).unwrap().as_str()), (Some(1), "cannot write standard output: Broken pipe\n"));
}

/// Standard error that can't be written changes nothing.
#[test]
fn nobody_listens() {
    let full = || std::fs::OpenOptions::new().write(true).open("/dev/full").unwrap();
    let run = |words: &[&str]| Command::new(COMMAND).arg("retime").args(cut()).args(words).stderr(full()).output().unwrap();
    let output = run(&["--subs", &subs()]);
    assert_eq!((output.status.code(), output.stdout), (Some(0), read(&play("srt", "expected"))));
    assert_eq!(run(&[]).status.code(), Some(2));
    assert_eq!(run(&["--subs", "none.srt"]).status.code(), Some(1));
}

/// Interrupted while it waits for captions: the file that was there stays, and nothing is beside it.
#[test]
fn interrupted() {
    let folder = Folder::new();
    let out = folder.write("out.srt", "old");
    let mut child = Command::new(COMMAND).arg("retime").args(cut()).args(["--subs", "-", "--kind", "srt", "-o", &out]).stdin(Stdio::piped()).stderr(Stdio::null()).spawn().unwrap();
    let mut input = child.stdin.take().unwrap();
    std::io::Write::write_all(&mut input, b"1\n00:00:01,000 -->").unwrap();
    std::thread::sleep(std::time::Duration::from_millis(50));
    child.kill().unwrap();
    child.wait().unwrap();
    assert_eq!((folder.read("out.srt"), folder.names()), (b"old".to_vec(), vec!["out.srt".to_string()]));
}
