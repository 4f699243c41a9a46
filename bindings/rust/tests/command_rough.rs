//! Rough edges that users met, each with what is said or done now: names that lead to one file, streams that are open already, other encodings, interrupted writes, words of the command line, and refusals that say what to do.
mod common;
use common::{cut, play, ran, read, run, run_play, run_with, Folder, COMMAND};
use std::fs;
use std::process::{Command, Stdio};

fn subs() -> String {
    play("srt", "subs.srt")
}

fn expected() -> Vec<u8> {
    read(&play("srt", "expected"))
}

/// A line of the shell, `$0` being the command and `$1` the folder of the example play.
fn shell(line: &str, folder: &Folder) -> common::Ran {
    ran(Command::new("sh").current_dir(folder.path("")).args(["-c", line, COMMAND, &play("srt", "").replace("/srt/", "/srt")]).stdin(Stdio::null()).output().unwrap())
}

const RETIME: &str = "\"$0\" retime --sheet $1/sheet.bin --list $1/trim.txt --subs $1/subs.srt";

/// Two names of one file that is not there yet.
#[test]
fn warnings_in_the_captions_place() {
    let folder = Folder::new();
    for (out, warnings) in [("new.srt", "./new.srt"), ("new.srt", "../new.srt"), ("./a/../new.srt", "new.srt")] {
        fs::create_dir_all(folder.path("a")).unwrap();
        let at = if warnings.starts_with("..") { "cd a && " } else { "" };
        let out = if at.is_empty() { out.to_string() } else { format!("../{out}") };
        let got = shell(&format!("{at}{RETIME} -o {out} --warnings {warnings}"), &folder);
        got.fails(2, &[&format!("bobbincrag retime: {warnings} is written twice")]);
    }
    assert_eq!(folder.names(), ["a"]);
}

/// What a log holds stays when a stream that leads there is named.
#[cfg(target_os = "linux")]
#[test]
fn streams_that_are_open() {
    let folder = Folder::new();
    folder.write("log", "before\n");
    assert_eq!(shell(&format!("{RETIME} -o /dev/stdout >>log 2>/dev/null"), &folder).status, 0);
    assert_eq!(folder.read("log"), [b"before\n".to_vec(), expected()].concat());
    folder.write("log", "before\n");
    assert_eq!(shell(&format!("{RETIME} -o cut.srt --warnings /dev/stderr 2>>log"), &folder).status, 0);
    let log = String::from_utf8(folder.read("log")).unwrap();
    assert!(log.starts_with("before\n") && log.contains("\t59\t4\t") && log.ends_with("passed\n"), "{log}");
    // a link to a stream is no file either, and any open stream can be named
    std::os::unix::fs::symlink("/dev/stdout", folder.path("link")).unwrap();
    assert_eq!(shell(&format!("{RETIME} -o link"), &folder).out, expected());
    folder.write("log", "before\n");
    assert_eq!(shell(&format!("{RETIME} -o /dev/fd/3 3>>log"), &folder).status, 0);
    assert_eq!(folder.read("log"), [b"before\n".to_vec(), expected()].concat());
    assert!(fs::symlink_metadata(folder.path("link")).unwrap().is_symlink());
}

/// A link to a file that is not there yet leads there, as everywhere else.
#[cfg(unix)]
#[test]
fn a_link_that_leads_nowhere_yet() {
    let folder = Folder::new();
    fs::create_dir(folder.path("there")).unwrap();
    std::os::unix::fs::symlink("there/new.srt", folder.path("link.srt")).unwrap();
    assert_eq!(run_play("retime", &["--subs", &subs(), "-o", &folder.path("link.srt")]).status, 0);
    assert!(fs::symlink_metadata(folder.path("link.srt")).unwrap().is_symlink());
    assert_eq!(folder.read("there/new.srt"), expected());
}

/// Standard output that is closed: the text is not lost without a word.
#[cfg(target_os = "linux")]
#[test]
fn closed_standard_output() {
    let folder = Folder::new();
    shell(&format!("{RETIME} >&-"), &folder).fails(1, &["cannot write standard output: it is closed"]);
    shell("\"$0\" --version >&-", &folder).fails(1, &["cannot write standard output: it is closed"]);
    assert_eq!(shell(&format!("{RETIME} -o cut.srt >&-"), &folder).status, 0);
    assert_eq!(folder.read("cut.srt"), expected());
    assert_eq!(shell(&format!("{RETIME} >/dev/null"), &folder).status, 0);
}

/// A folder takes one file too, under its own name; one whose name ends in a slash is made.
#[test]
fn one_file_into_a_folder() {
    let folder = Folder::new();
    fs::create_dir(folder.path("there")).unwrap();
    for out in ["there", "made/"] {
        assert_eq!(run_play("retime", &["--subs", &subs(), "-o", &folder.path(out)]).status, 0);
        assert_eq!(folder.read(&format!("{out}/subs.srt")), expected());
    }
    run_with(&["retime", "--sheet", &play("srt", "sheet.bin"), "--subs", "-", "--kind", "srt", "-o", &folder.path("there")], b"").fails(2, &["bobbincrag retime: - has no name to be written under in a folder"]);
    // a file is no folder, whatever its name ends in
    let plain = folder.write("plain", "x") + "/";
    assert_ne!(run_play("retime", &["--subs", &subs(), "-o", &plain]).status, 0);
    assert_eq!(folder.read("plain"), b"x");
}

/// Interrupted while bytes are written: what stood there stays, and what is left beside it goes at a later call.
#[cfg(target_os = "linux")]
#[test]
fn interrupted_while_bytes_are_written() {
    let folder = Folder::new();
    let out = folder.write("out.srt", "old");
    let block = "1\n00:00:01,000 --> 00:00:02,000\nGood evening. The lamp is lit.\n\n";
    let long = folder.write("long.srt", block.repeat(1_000_000));
    let left = |folder: &Folder| folder.names().into_iter().filter(|n| n.starts_with(".bobbincrag-")).collect::<Vec<_>>();
    let mut caught = false;
    for _ in 0..5 {
        fs::write(&out, "old").unwrap();
        let mut child = Command::new(COMMAND).arg("retime").args(cut()).args(["--subs", &long, "-o", &out]).stderr(Stdio::null()).spawn().unwrap();
        while left(&folder).is_empty() && child.try_wait().unwrap().is_none() {
            std::thread::sleep(std::time::Duration::from_micros(200));
        }
        child.kill().unwrap();
        child.wait().unwrap();
        caught = !left(&folder).is_empty();
        if caught {
            break;
        }
    }
    assert!(caught, "no run was interrupted in its write");
    assert_eq!(folder.read("out.srt"), b"old");
    // one that is new may be another machine's; an old one of a process that runs stays too
    let dead = left(&folder)[0].clone();
    let own = format!(".bobbincrag-{}-0", std::process::id());
    folder.write(&own, "x");
    run_play("map", &["-o", &folder.path("map.txt")]);
    assert!(folder.names().contains(&dead));
    let past = std::time::SystemTime::now() - std::time::Duration::from_secs(120);
    for name in [&dead, &own] {
        fs::File::options().write(true).open(folder.path(name)).unwrap().set_modified(past).unwrap();
    }
    folder.write(".bobbincrag-x-0", "x");
    run_play("map", &["-o", &folder.path("map.txt")]);
    assert_eq!(left(&folder), [own, ".bobbincrag-x-0".to_string()]);
}

/// More faults than are looked for are not counted as all.
#[test]
fn fifty_faults_or_more() {
    let folder = Folder::new();
    let sheet = folder.write("sheet.bin", common::sheet(2_100, 100));
    let near = |n: u32| folder.write("near.txt", (0..n).map(|k| format!("Trim({},{})", 2 * k, 2 * k)).collect::<Vec<_>>().join("++"));
    let last = |n: u32| run(&["check", "--sheet", &sheet, "--list", &near(n)]).text().lines().last().unwrap().to_string();
    assert_eq!(last(1_024), "2 files checked, 50 faults or more in 1");
    // each stretch of 100 frames holds 50 trims, of which 49 overlap the first
    assert_eq!((last(49), last(51)), ("2 files checked, 48 faults in 1".to_string(), "2 files checked, 49 faults in 1".to_string()));
    assert_eq!((last(52), last(53)), ("2 files checked, 50 faults in 1".to_string(), "2 files checked, 50 faults or more in 1".to_string()));
}

/// Words of the command line that are understood elsewhere.
#[test]
fn command_lines() {
    assert_eq!(run(&["help", "retime"]).text(), run(&["retime", "--help"]).text());
    assert_eq!(run(&["--help", "why"]).text(), run(&["why", "--help"]).text());
    assert_eq!(run(&["help"]).text(), run(&["--help"]).text());
    run(&["help", "paint"]).fails(2, &["bobbincrag: there is no command paint"]);
    let ask = |words: &[&str]| run_play("census", words);
    assert_eq!(ask(&["--", "2", "1:00"]).text(), ask(&["2", "1:00"]).text());
    run_play("census", &["--", "--help", "1"]).fails(2, &["bobbincrag census: --help is no time: say 2.5, 1:30 or 1:00:00"]);
    run_play("retime", &["--subs", &subs(), "--", "-o"]).fails(2, &["bobbincrag retime: -o is one word too many"]);
}

const BYTES: &str = "refused 20: the captions, the trim list or the path of a map's JSON are not UTF-8";

/// What is not UTF-8 is told with what it looks like.
#[test]
fn other_encodings_are_named() {
    let folder = Folder::new();
    let text = "1\n00:00:01,000 --> 00:00:02,000\nCafé\n";
    let wide: Vec<u8> = text.encode_utf16().flat_map(u16::to_le_bytes).collect();
    let turned: Vec<u8> = text.encode_utf16().flat_map(u16::to_be_bytes).collect();
    let wider: Vec<u8> = [0xFEFF].into_iter().chain(text.chars().map(u32::from)).flat_map(u32::to_le_bytes).collect();
    let narrow: Vec<u8> = text.chars().map(|c| c as u8).collect();
    let none = [&narrow[..], b"\x81"].concat();
    let named = "Save it as UTF-8; captions can be read by --encoding";
    for (name, bytes, said) in [("wide.srt", &wide, Some("utf-16")), ("turned.srt", &turned, Some("utf-16be")), ("wider.srt", &wider, Some("utf-32")), ("narrow.srt", &narrow, Some("windows-1252")), ("none.srt", &none, None)] {
        let path = folder.write(name, bytes);
        let line = match said {
            Some(said) => format!("{path} is not UTF-8: it looks like {said}. {named} {said}"),
            None => format!("{path} is not UTF-8, and looks like nothing that --encoding can read: save it as UTF-8"),
        };
        let got = run_play("retime", &["--subs", &path]);
        assert!(got.fails(1, &[&line]).err.starts_with(&format!("{BYTES} ({path}, line ")), "{got:?}");
        assert_eq!(got.err.contains("(this is UTF-32: save it as UTF-8)"), name == "wider.srt", "{got:?}");
        assert!(run(&["check", "--subs", &path]).text().lines().any(|l| l == line));
    }
    let list = folder.write("trim.txt", b"Trim(0,9) \xe9");
    let line = format!("{list} is not UTF-8: it looks like windows-1252. {named} windows-1252");
    run(&["map", "--sheet", &play("srt", "sheet.bin"), "--list", &list]).fails(1, &[&line]);
}

/// `--encoding` reads them, and what is written is UTF-8.
#[test]
fn other_encodings_are_read() {
    let folder = Folder::new();
    let text = "1\r\n00:00:01,000 --> 00:00:02,000\r\nCafé “noir”\r\n";
    let plain = folder.write("plain.srt", text);
    let want = run_play("retime", &["--subs", &plain]).out;
    assert!(String::from_utf8(want.clone()).unwrap().contains("Café “noir”"));
    let wide: Vec<u8> = [0xFEFF].into_iter().chain(text.encode_utf16()).flat_map(u16::to_be_bytes).collect();
    let narrow: Vec<u8> = text
        .chars()
        .map(|c| {
            if c == '“' {
                0x93
            } else if c == '”' {
                0x94
            } else {
                c as u8
            }
        })
        .collect();
    for (name, bytes) in [("utf-16", wide), ("windows-1252", narrow.clone()), ("CP1252", narrow), ("utf-8", text.as_bytes().to_vec())] {
        let path = folder.write("subs.srt", bytes);
        let got = run_play("retime", &["--subs", &path, "--encoding", name]);
        assert_eq!((got.status, &got.out), (0, &want), "{name}");
        assert_eq!(got.err.contains(&format!("{path}: read as ")), name != "utf-8", "{got:?}");
        for command in ["check", "why", "delay", "picture"] {
            let cut = cut();
            let given: &[String] = if command == "check" { &cut[..2] } else { &cut };
            let words: Vec<&str> = [command].into_iter().chain(given.iter().map(String::as_str)).chain(["--subs", &path, "--encoding", name]).collect();
            assert_eq!(run(&words).status, 0, "{command} {name}");
        }
    }
    let odd = folder.write("odd.srt", b"\xff\xfe1");
    run_play("retime", &["--subs", &odd, "--encoding", "utf-16"]).fails(1, &[&format!("{odd} can't be read as utf-16: byte 2 is none of its characters")]);
    run_play("retime", &["--subs", &plain, "--encoding", "koi8-r"]).fails(2, &["bobbincrag retime: --encoding is one of utf-8, utf-16, utf-16be, utf-32, windows-1252, iso-8859-1, not koi8-r"]);
}

/// Refusals that say what to do, and at once.
#[test]
fn what_to_do() {
    let range = "refused 16: an argument is out of range, or a lent buffer too short";
    run_play("census", &["2", "100:00:01"]).fails(1, &[&format!("{range} (LENGTH and SPAN are at most 100:00:00)")]);
    run_play("census", &["2", "10:00:01", "--kind", "srt"]).fails(1, &[&format!("{range} (LENGTH and SPAN are at most 10:00:00)")]);
    let folder = Folder::new();
    // a file without blocks of its own, of one byte more than is taken
    let long = folder.write("long.srt", "");
    fs::File::options().write(true).open(&long).unwrap().set_len((1 << 30) + 1).unwrap();
    let start = std::time::Instant::now();
    run_play("retime", &["--subs", &long]).fails(1, &[&format!("{range} ({long} has more than 1,073,741,824 bytes: split it)")]);
    assert!(start.elapsed().as_secs() < 5);
    let block = |k: u64| format!("{k}\n00:00:{:02},{:03} --> 00:00:{:02},500\nx\n\n", k / 1_000, k % 500, k / 1_000);
    let many = folder.write("many.srt", (0..6_000).map(block).collect::<String>());
    let tries = "refused 29: more than 4,096 captions are to be shifted, or no shift is to be tried";
    run_play("delay", &["--subs", &many]).fails(1, &[&format!("{tries} ({many}: it has 6000 captions, and 4096 at most can be shifted: split it in 2 files)")]);
    run_play("delay", &["--subs", &subs(), "--budget", "0"]).fails(1, &[&format!("{tries} ({}: say --budget 1 or more)", subs())]);
}
