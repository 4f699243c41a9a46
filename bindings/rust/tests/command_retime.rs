//! `bobbincrag retime`, from files to files. What is expected stands in examples/play or is worked out from the papers.
mod common;

use common::{play, read, run, run_play, run_with, sheet, Folder};

const KINDS: [&str; 3] = ["ass", "srt", "vtt"];

fn subs(kind: &str) -> String {
    play(kind, &format!("subs.{kind}"))
}

fn expected(kind: &str) -> Vec<u8> {
    read(&play(kind, "expected"))
}

/// Each kind to standard output: the captions and nothing else.
#[test]
fn to_standard_output() {
    for kind in KINDS {
        let ran = run_play("retime", &["--subs", &subs(kind)]);
        assert_eq!((ran.status, &ran.out), (0, &expected(kind)), "{kind}: {}", ran.err);
    }
}

/// The counts and warnings of the example play, worked out from its sheet and list: frames of 1001 ticks, 24000 a second, kept 12 to 720, 1164 to 1608 and 1680 to 2388 once
/// widened to every twelfth frame, that is 0.500 to 30.030 s, 48.548 to 67.067 s and 70.070 to 99.600 s. One caption ends in the second gap and goes on in the third stretch.
#[test]
fn told_on_standard_error() {
    let name = subs("ass");
    let ran = run_play("retime", &["--subs", &name]);
    let text = String::from_utf8(read(&name)).unwrap();
    let line = 1 + text.lines().position(|l| l.contains("All night I heard")).unwrap();
    let kept = String::from_utf8(expected("ass")).unwrap();
    let captions = |t: &str| t.lines().filter(|l| l.starts_with("Dialogue:") || l.starts_with("Comment:")).count();
    let dropped = captions(&text) - captions(&kept);
    let warning = "the end was cut off, and a kept stretch further on has a part of the same caption";
    let told = format!("{name}:{line}: warning 4: {warning}: \"All night I heard someone sing.\"");
    ran.says(0, &[&told]);
    let last = ran.err.lines().last().unwrap();
    assert!(last.starts_with(&format!("{name}: ")) && last.ends_with(&format!("{dropped} dropped, 0 passed")), "{last}");
}

/// Three languages in one call, into a folder that is made.
#[test]
fn several_at_once() {
    let folder = Folder::new();
    let out = folder.path("cut");
    let names = KINDS.map(subs);
    let words: Vec<&str> = ["--subs"].into_iter().chain(names.iter().map(String::as_str)).chain(["-o", &out]).collect();
    for round in 0..2 {
        let ran = run_play("retime", &words);
        assert_eq!((ran.status, ran.text()), (0, ""), "round {round}: {}", ran.err);
        for kind in KINDS {
            assert_eq!(read(&format!("{out}/subs.{kind}")), expected(kind));
            assert!(ran.err.contains(&format!("{}: ", subs(kind))));
        }
    }
    assert_eq!((folder.names(), std::fs::read_dir(&out).unwrap().count()), (vec!["cut".to_string()], 3));
}

#[test]
fn to_a_file() {
    let folder = Folder::new();
    let out = folder.write("out.srt", "old");
    let ran = run_play("retime", &["--subs", &subs("srt"), "-o", &out]);
    assert_eq!((ran.status, ran.text()), (0, ""));
    assert_eq!((folder.read("out.srt"), folder.names()), (expected("srt"), vec!["out.srt".to_string()]));
    let ran = run_play("retime", &["--subs", &subs("vtt"), "--output", &folder.path("new.vtt")]);
    assert_eq!((ran.status, folder.read("new.vtt")), (0, expected("vtt")));
}

/// Rights stay, and a link leads to the file that is written.
#[cfg(unix)]
#[test]
fn the_file_that_was_there() {
    use std::os::unix::fs::{symlink, PermissionsExt};
    let folder = Folder::new();
    let out = folder.write("out.srt", "old");
    std::fs::set_permissions(&out, std::fs::Permissions::from_mode(0o640)).unwrap();
    symlink(&out, folder.path("link.srt")).unwrap();
    let ran = run_play("retime", &["--subs", &subs("srt"), "-o", &folder.path("link.srt")]);
    assert_eq!((ran.status, folder.read("out.srt")), (0, expected("srt")));
    assert_eq!(std::fs::metadata(&out).unwrap().permissions().mode() & 0o777, 0o640);
    assert!(std::fs::symlink_metadata(folder.path("link.srt")).unwrap().is_symlink());
}

#[test]
fn standard_input() {
    let cut = common::cut();
    let words = |more: &[&'static str]| -> Vec<String> { ["retime".to_string()].into_iter().chain(cut.clone()).chain(more.iter().map(|w| w.to_string())).collect() };
    let ask = |more: &[&'static str], input: &[u8]| run_with(&words(more).iter().map(String::as_str).collect::<Vec<_>>(), input);
    let ran = ask(&["--subs", "-", "--kind", "srt"], &read(&subs("srt")));
    assert_eq!((ran.status, &ran.out), (0, &expected("srt")));
    assert!(ran.err.contains("standard input: "));
    ask(&["--subs", "-"], b"").fails(2, &["bobbincrag retime: the ending of standard input tells no kind: say --kind ass, srt or vtt"]);
    let ran = run_with(&["retime", "--sheet", "-", "--list", &play("ass", "trim.txt"), "--subs", &subs("ass")], &read(&play("ass", "sheet.bin")));
    assert_eq!((ran.status, &ran.out), (0, &expected("ass")));
    let ran = run_with(&["retime", "--sheet", &play("ass", "sheet.bin"), "--list", "-", "--subs", &subs("ass")], &read(&play("ass", "trim.txt")));
    assert_eq!((ran.status, &ran.out), (0, &expected("ass")));
    run_with(&["retime", "--sheet", "-", "--subs", "-", "--kind", "ass"], b"").fails(2, &["bobbincrag retime: - is standard input, which can be read once"]);
}

/// Through a map as the cutter stores it.
#[test]
fn through_a_stored_map() {
    let folder = Folder::new();
    let map = folder.path("map.json");
    assert_eq!(run_play("map", &["--json", "play.mp4", "-o", &map]).status, 0);
    for kind in KINDS {
        let ran = run(&["retime", "--map", &map, "--subs", &subs(kind)]);
        assert_eq!((ran.status, &ran.out), (0, &expected(kind)));
    }
    let bad = folder.write("bad.json", "{}");
    run(&["retime", "--map", &bad, "--subs", &subs("ass")]).fails(1, &[&format!("refused 23: a text is no segment map as the cutter stores it ({bad})")]);
    run(&["retime", "--map", &map, "--list", &map, "--subs", &subs("ass")]).fails(2, &["bobbincrag retime: --map stands in place of --sheet, --list and --inward"]);
}

/// Document 01's table through its map: ten frames, of which the list keeps 0 to 2 and 6 to 9.
#[test]
fn the_table() {
    let folder = Folder::new();
    let (sheet, list) = (folder.write("sheet.bin", read(&common::file("crates/mapper/data/sheet.bin"))), folder.write("trim.txt", "Trim(0,2) ++\r\nTrim(6,8)\r\n"));
    let head = "[Events]\nFormat: Start, End, Text\n";
    let text = format!("{head}Dialogue: 0:00:00.05,0:00:00.25,{{\\i1}}one\nDialogue: 0:00:00.12,0:00:00.20,two\nDialogue: 0:00:00.21,0:00:00.25,three\nDialogue: 0:00:00.20,0:00:00.21,{{\\fad(9,9)}}four\nDialogue: five\n");
    let subs = folder.write("subs.ass", text);
    let warnings = folder.path("warnings.tsv");
    let ran = run(&["retime", "--sheet", &sheet, "--list", &list, "--subs", &subs, "--warnings", &warnings]);
    let moved = format!("{head}Dialogue:0:00:00.05,0:00:00.11,{{\\i1}}one\nDialogue:0:00:00.10,0:00:00.15,three\nDialogue:0:00:00.10,0:00:00.11,{{\\fad(9,9)}}four\nDialogue: five\n");
    assert_eq!((ran.status, ran.text()), (0, &*moved), "{}", ran.err);
    let four = "the end was cut off, and a kept stretch further on has a part of the same caption";
    let three = "the start was cut off, and the caption has tags that count from its start (fades, moves, karaoke)";
    let two = "an ASS caption passed unchanged: it has fewer fields than the Format line";
    let told = format!("{subs}:3: warning 4: {four}: \"one\"\n{subs}:6: warning 3: {three}: \"four\"\n{subs}:7: warning 2: {two}: \"Dialogue: five\"\n{subs}: 1 shifted, 2 clipped, 1 dropped, 1 passed\n");
    assert_eq!(ran.err, told);
    let table = format!("{subs}\t3\t4\t{four}\tone\n{subs}\t6\t3\t{three}\tfour\n{subs}\t7\t2\t{two}\tDialogue: five\n");
    assert_eq!(String::from_utf8(folder.read("warnings.tsv")).unwrap(), table);
}

/// Without a list, and with a blank one, the whole recording is kept, and that is said.
#[test]
fn the_whole_recording() {
    let folder = Folder::new();
    let (sheet, blank) = (folder.write("sheet.bin", sheet(100, 10)), folder.write("trim.txt", "\r\n"));
    let subs = folder.write("subs.srt", "1\n00:00:01,000 --> 00:00:02,000\nA\n");
    let ran = run(&["retime", "--sheet", &sheet, "--subs", &subs]);
    assert_eq!(ran.out, folder.read("subs.srt"));
    ran.says(0, &["no list: the whole recording is kept", &format!("{subs}: 1 shifted, 0 clipped, 0 dropped, 0 passed")]);
    let ran = run(&["retime", "--sheet", &sheet, "--list", &blank, "--subs", &subs]);
    assert_eq!(ran.out, folder.read("subs.srt"));
    ran.says(0, &[&format!("{blank} is blank: the whole recording is kept")]);
}

/// Inward, a trim is narrowed: frames 5 to 25 of 10 a second, sync every 10, keep 10 to 19.
#[test]
fn inward() {
    let folder = Folder::new();
    let mut words = common::words(100, 10, false);
    words[1] = 10_010;
    common::seal(&mut words, 0);
    let (sheet, list) = (folder.write("sheet.bin", common::bytes(&words)), folder.write("trim.txt", "Trim(5,25)"));
    let subs = folder.write("subs.vtt", "WEBVTT\n\n00:01.200 --> 00:01.300\nA\n");
    let ask = |more: &[&str]| run(&[&["retime", "--sheet", &sheet, "--list", &list, "--subs", &subs], more].concat());
    assert_eq!(ask(&[]).text(), "WEBVTT\n\n00:00:01.200 --> 00:00:01.300\nA\n");
    assert_eq!(ask(&["--inward"]).text(), "WEBVTT\n\n00:00:00.200 --> 00:00:00.300\nA\n");
}

/// A refused text: its line and words, status 1, and no output is touched, not that of a good one beside it either.
#[test]
fn refused_texts() {
    let folder = Folder::new();
    let good = subs("srt");
    let bad = folder.write("bad.srt", "1\r\n00:00:01,000 --> 00:00:02,000\r\nA\r\n\r\n2\r\n00:00:61,000 --> 00:01:02,000\r\n<i>Good evening.</i>\r\n");
    let latin = folder.write("latin.srt", b"1\n00:00:01,000 --> 00:00:02,000\nCaf\xe9\n");
    let out = folder.path("out");
    std::fs::create_dir(&out).unwrap();
    std::fs::write(format!("{out}/subs.srt"), "old").unwrap();
    let (time, bytes) = ("refused 22: a caption's time can't be read", "refused 20: the captions, the trim list or the path of a map's JSON are not UTF-8");
    let ran = run_play("retime", &["--subs", &good, &bad, &latin, "-o", &out]);
    ran.fails(1, &[&format!("{time} ({bad}, line 6: \"00:00:61,000 --> 00:01:02,000 Good evening.\")"), &format!("{bytes} ({latin}, line 3: \"Caf\u{FFFD}\")")]);
    assert_eq!((read(&format!("{out}/subs.srt")), std::fs::read_dir(&out).unwrap().count()), (b"old".to_vec(), 1));
    let kept = folder.write("kept.srt", "old");
    run_play("retime", &["--subs", &bad, "-o", &kept]).fails(1, &[]);
    assert_eq!(folder.read("kept.srt"), b"old");
    let new = folder.path("new.srt");
    run_play("retime", &["--subs", &bad, "-o", &new, "--warnings", &folder.path("warnings")]).fails(1, &[]);
    assert_eq!(folder.names(), ["bad.srt", "kept.srt", "latin.srt", "out"]);
    let wide: Vec<u8> = [0xFEFF].into_iter().chain("1\r\n".encode_utf16()).flat_map(u16::to_le_bytes).collect();
    let wide = folder.write("wide.srt", wide);
    let ran = run_play("retime", &["--subs", &wide]);
    assert!(ran.fails(1, &[]).err.starts_with(&format!("{bytes} ({wide}, line 1: ")) && ran.err.contains("(this is UTF-16: save it as UTF-8))\n"), "{}", ran.err);
    let empty = folder.write("empty.vtt", "");
    run_play("retime", &["--subs", &empty]).fails(1, &[&format!("refused 24: the WebVTT captions do not begin with the line WEBVTT ({empty}, line 1: \"\")")]);
}

/// A sheet that is cut off at every block, a list with a fault: refused with the place, no output.
#[test]
fn refused_cuts() {
    let folder = Folder::new();
    let whole = read(&play("srt", "sheet.bin"));
    let frames = u32::from_le_bytes(whole[8..12].try_into().unwrap());
    let list = play("srt", "trim.txt");
    let out = folder.write("out.srt", "old");
    for blocks in 0..whole.len() / 512 {
        let sheet = folder.write("sheet.bin", &whole[..512 * blocks]);
        let place = match blocks {
            0 => "it is empty".to_string(),
            b => format!("{} bytes, and for {frames} frames it should be {}: block {b} and what follows are missing or cut off", 512 * b, whole.len()),
        };
        let line = format!("refused 11: the sheet has a wrong length ({sheet}, {place})");
        run(&["retime", "--sheet", &sheet, "--list", &list, "--subs", &subs("srt"), "-o", &out]).fails(1, &[&line]);
    }
    let sheet = play("srt", "sheet.bin");
    let ask = |list: &[u8]| run(&["retime", "--sheet", &sheet, "--list", &folder.write("trim.txt", list), "--subs", &subs("srt"), "-o", &out]);
    let name = folder.path("trim.txt");
    ask(b"Trim(0,9) ++ Trim(5,1)").fails(1, &[&format!("refused 4: a is greater than b ({name}, entry 2, line 1: Trim(5,1))")]);
    let mark = "line 1: the list begins with a byte order mark: save it without";
    ask("\u{FEFF}Trim(0,9)\r\n".as_bytes()).fails(1, &[&format!("refused 2: an entry of the list is not Trim(a,b) ({name}, {mark})")]);
    assert!(ask(b"Trim(0,9) ++ Trim(13,14)\r\n++ Trim(15,20)").err.starts_with(&format!("refused 8: two trims overlap once they are widened to cutting places ({name}, entry 3, line 2: Trim(15,20), ")));
    assert_eq!((folder.read("out.srt"), folder.names()), (b"old".to_vec(), vec!["out.srt".to_string(), "sheet.bin".to_string(), "trim.txt".to_string()]));
    // CR LF is white space
    assert_eq!(ask(b"Trim(12,719) ++\r\nTrim(1164,1607)\r\n++ Trim(1680,2379)\r\n").status, 0);
    assert_eq!(folder.read("out.srt"), expected("srt"));
}

#[test]
fn unreadable_files() {
    let folder = Folder::new();
    let (none, dir) = (folder.path("none.srt"), folder.path(""));
    run_play("retime", &["--subs", &none]).fails(1, &[&format!("cannot read {none}: No such file or directory")]);
    run_play("retime", &["--subs", &subs("srt"), &none, "-o", &folder.path("out")]).fails(1, &[&format!("cannot read {none}: No such file or directory")]);
    run(&["retime", "--sheet", &none, "--subs", &subs("srt")]).fails(1, &[&format!("cannot read {none}: No such file or directory")]);
    run(&["retime", "--sheet", &dir, "--subs", &subs("srt")]).fails(1, &[&format!("cannot read {dir}: Is a directory")]);
    run(&["retime", "--sheet", &play("srt", "sheet.bin"), "--list", &none, "--subs", &subs("srt")]).fails(1, &[&format!("cannot read {none}: No such file or directory")]);
    assert!(folder.names().is_empty());
}

/// No input is ever written over.
#[cfg(unix)]
#[test]
fn inputs_stay() {
    let folder = Folder::new();
    let subs = folder.write("subs.srt", read(&subs("srt")));
    std::os::unix::fs::symlink(&subs, folder.path("link.srt")).unwrap();
    std::fs::hard_link(&subs, folder.path("hard.srt")).unwrap();
    for out in [subs.clone(), folder.path("link.srt"), folder.path("hard.srt"), folder.path("./subs.srt")] {
        let line = format!("bobbincrag retime: {out} is read, and would be lost: write to another file");
        run_play("retime", &["--subs", &subs, "-o", &out]).fails(2, &[&line]);
        run_play("retime", &["--subs", &subs, "-o", &folder.path("new.srt"), "--warnings", &out]).fails(2, &[&line]);
    }
    let second = folder.write("second.srt", read(&subs));
    run_play("retime", &["--subs", &subs, &second, "-o", &folder.path("")]).fails(2, &[]);
    let new = folder.path("new.srt");
    run_play("retime", &["--subs", &subs, "-o", &new, "--warnings", &new]).fails(2, &[&format!("bobbincrag retime: {new} is written twice")]);
    assert_eq!(folder.read("subs.srt"), read(&self::subs("srt")));
    assert_eq!(folder.names(), ["hard.srt", "link.srt", "second.srt", "subs.srt"]);
}

#[test]
fn usage() {
    let folder = Folder::new();
    let (srt, vtt) = (subs("srt"), subs("vtt"));
    let usage = "usage: bobbincrag retime --sheet S [--list L] --subs C.. [-o OUT]";
    run_play("retime", &[]).fails(2, &["bobbincrag retime: name the captions with --subs", usage]);
    run(&["retime", "--subs", &srt]).fails(2, &["bobbincrag retime: name the frame sheet with --sheet", usage]);
    run_play("retime", &["--subs", &srt, &vtt]).fails(2, &["bobbincrag retime: several caption files need a folder to be written to: name it with -o", usage]);
    run_play("retime", &["--subs", &srt, "--subs", &srt, "-o", &folder.path("out")]).fails(2, &["bobbincrag retime: two caption files have the name subs.srt", usage]);
    run_play("retime", &["--subs", &srt, "--colour"]).fails(2, &["bobbincrag retime: there is no option --colour", usage]);
    run_play("retime", &["--subs", &srt, "--sheet", &srt]).fails(2, &["bobbincrag retime: --sheet stands twice", usage]);
    run_play("retime", &["--subs"]).fails(2, &["bobbincrag retime: --subs needs FILE..", usage]);
    run_play("retime", &["--subs", &srt, "--inward=1"]).fails(2, &["bobbincrag retime: --inward takes no value", usage]);
    run_play("retime", &["--subs", &srt, "--kind", "sub"]).fails(2, &["bobbincrag retime: --kind is ass, srt or vtt, not sub", usage]);
    run_play("retime", &["word", "--subs", &srt]).fails(2, &["bobbincrag retime: word is one word too many", usage]);
    let text = folder.write("subs.txt", "x");
    run_play("retime", &["--subs", &text]).fails(2, &[&format!("bobbincrag retime: the ending of {text} tells no kind: say --kind ass, srt or vtt"), usage]);
    let plain = folder.write("plain", "x");
    run_play("retime", &["--subs", &srt, &vtt, "-o", &plain]).fails(2, &[&format!("bobbincrag retime: {plain} is no folder, which several caption files need"), usage]);
    assert_eq!(folder.names(), ["plain", "subs.txt"]);
    assert_eq!(folder.read("plain"), b"x");
    let ran = run_play("retime", &[&format!("--subs={srt}"), "--kind=srt"]);
    assert_eq!((ran.status, ran.out), (0, expected("srt")));
}
