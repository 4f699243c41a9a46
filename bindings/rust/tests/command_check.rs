//! `bobbincrag check`, and what all commands share: help, version, completions, the manual page.
mod common;

use common::{file, play, read, run, run_play, run_with, seal, words, Folder};
use std::process::Command;

const COMMANDS: [&str; 10] = ["sheet", "retime", "map", "check", "why", "cues", "census", "delay", "picture", "completions"];

#[test]
fn sound() {
    let (sheet, list) = (play("ass", "sheet.bin"), play("ass", "trim.txt"));
    let subs = ["ass", "srt", "vtt"].map(|k| play(k, &format!("subs.{k}")));
    let ran = run_play("check", &["--subs", &subs[0], &subs[1], &subs[2]]);
    let page: String = [&sheet, &list].into_iter().chain(&subs).map(|name| format!("{name}: sound\n")).collect();
    assert_eq!((ran.status, ran.text(), ran.err.as_str()), (0, &*format!("{page}5 files checked, all sound\n"), ""));
    let ran = run(&["check", "--list", &list]);
    assert_eq!((ran.status, ran.text()), (0, &*format!("{list}: sound\n1 file checked, all sound\n")));
}

/// Every fault, each with its place, and a last line that sums up.
#[test]
fn faults() {
    let folder = Folder::new();
    let mut damaged = words(200, 10, false);
    damaged[129] = 500;
    damaged[128 * 2 + 6] += 1;
    seal(&mut damaged, 1);
    let sum = damaged[256..256 + 127].iter().fold(0u32, |a, x| a.wrapping_add(*x));
    let told = damaged[256 + 127];
    let sheet = folder.write("sheet.bin", common::bytes(&damaged));
    let list = folder.write("trim.txt", "\u{FEFF}Trim(0,9)\r\n++ Trim(5,3) ++ Trim(8,9)");
    let subs = folder.write("subs.srt", b"1\n00:00:01,000 --> x\nA\n\n2\n00:00:02,000 --> 00:00:03,000\nB\xff\n");
    let ran = run(&["check", "--sheet", &sheet, "--list", &list, "--subs", &subs]);
    let page = [
        format!("refused 14: a frame's entry in the sheet is wrong ({sheet}, frame 0 (block 1, word 1): its decode index is 500, and it should be below 200)"),
        format!("refused 12: a block of the sheet is damaged ({sheet}, block 2: its sum is {told}, and its words add up to {sum})"),
        format!("refused 2: an entry of the list is not Trim(a,b) ({list}, line 1: the list begins with a byte order mark: save it without)"),
        format!("refused 4: a is greater than b ({list}, entry 2, line 2: Trim(5,3))"),
        format!("refused 6: a trim begins before the one before it has ended ({list}, entry 3, line 2: Trim(8,9), behind entry 1: Trim(0,9))"),
        format!("refused 22: a caption's time can't be read ({subs}, line 2: \"00:00:01,000 --> x A\")"),
        format!("refused 20: the captions, the trim list or the path of a map's JSON are not UTF-8 ({subs}, line 7: \"B\u{FFFD}\")"),
        format!("{subs} is not UTF-8: it looks like windows-1252. Save it as UTF-8; captions can be read by --encoding windows-1252"),
        "3 files checked, 7 faults in 3".to_string(),
    ];
    assert_eq!((ran.status, ran.text().lines().collect::<Vec<_>>()), (1, page.iter().map(String::as_str).collect::<Vec<_>>()));
    assert_eq!(folder.names(), ["sheet.bin", "subs.srt", "trim.txt"]);
}

/// Trims that do not fit the recording are told where both are given.
#[test]
fn of_the_cut() {
    let folder = Folder::new();
    let (sheet, list) = (folder.write("sheet.bin", common::sheet(100, 10)), folder.write("trim.txt", "Trim(0,12) ++ Trim(15,20)"));
    let ran = run(&["check", "--sheet", &sheet, "--list", &list]);
    let line = format!("refused 8: two trims overlap once they are widened to cutting places ({list}, entry 2, line 1: Trim(15,20), which becomes frames 10 to 29; entry 1, Trim(0,12), becomes frames 0 to 19)");
    assert_eq!((ran.status, ran.text()), (1, &*format!("{sheet}: sound\n{line}\n2 files checked, 1 fault in 1\n")));
    assert_eq!(run(&["check", "--list", &list]).status, 0);
    // inward they are 0 to 9 and nothing
    assert_eq!(run(&["check", "--sheet", &sheet, "--list", &list, "--inward"]).status, 0);
    let list = folder.write("trim.txt", "Trim(0,12) ++ Trim(15,18)");
    let ran = run(&["check", "--sheet", &sheet, "--list", &list, "--inward"]);
    let line = format!("refused 9: a trim begins after it ends once it is narrowed (only when cutting inward) ({list}, entry 2, line 1: Trim(15,18))");
    assert_eq!((ran.status, ran.text()), (1, &*format!("{sheet}: sound\n{line}\n2 files checked, 1 fault in 1\n")));
}

/// At most 50 of one number are printed.
#[test]
fn many() {
    let folder = Folder::new();
    let text: String = (0..60).map(|k| format!("{k}\n00:00:0{k} --> x\n\n")).collect();
    let subs = folder.write("subs.srt", text);
    let ran = run(&["check", "--subs", &subs]);
    let lines: Vec<&str> = ran.text().lines().collect();
    assert_eq!((ran.status, lines.len()), (1, 52));
    assert_eq!(lines[49], format!("refused 22: a caption's time can't be read ({subs}, line 149: \"00:00:049 --> x\")"));
    assert_eq!(lines[50..], [&*format!("and 10 more of 22 in {subs}"), "1 file checked, 60 faults in 1"]);
    // and at most 100 are looked for
    let subs = folder.write("many.srt", "1 --> 2\n\n".repeat(120));
    let ran = run(&["check", "--subs", &subs]);
    let lines: Vec<&str> = ran.text().lines().collect();
    assert_eq!(lines[50..], [&*format!("and 50 more of 22 in {subs}"), &*format!("the search ended here: {subs} may have more faults"), "1 file checked, 100 faults or more in 1"]);
}

/// Captions under another kind's ending: none is found, and the kind that they look like is named. They can be retimed, so the status is 0.
#[test]
fn another_kind() {
    let folder = Folder::new();
    for (kind, ending, looks) in [("ass", "srt", "; it looks like ass: say --kind ass"), ("srt", "ass", "; it looks like srt: say --kind srt"), ("vtt", "ass", "; it looks like vtt: say --kind vtt")] {
        let subs = folder.write(&format!("{kind}.{ending}"), read(&play(kind, &format!("subs.{kind}"))));
        let note = format!("no caption was found in it: it was read as {ending}{looks}");
        let ran = run(&["check", "--subs", &subs]);
        assert_eq!((ran.status, ran.text()), (0, &*format!("{subs}: sound\nnote: {note} ({subs})\n1 file checked, all sound\n")));
        let ran = run_play("retime", &["--subs", &subs]);
        assert_eq!((ran.status, ran.err), (0, format!("{subs}: {note}\n{subs}: 0 shifted, 0 clipped, 0 dropped, 0 passed\n")));
        for command in ["why", "delay", "picture", "cues"] {
            let words: &[&str] = if command == "cues" { &["--tsv"] } else { &[] };
            run_play(command, &[&["--subs", &subs], words].concat()).says(0, &[&format!("{subs}: {note}")]);
        }
    }
    let empty = folder.write("empty.srt", "");
    let ran = run_play("retime", &["--subs", &empty]);
    assert_eq!(ran.err, format!("{empty}: no caption was found in it: it was read as srt\n{empty}: 0 shifted, 0 clipped, 0 dropped, 0 passed\n"));
}

/// A second timing line in one block: it is neither moved nor counted, and that is said.
#[test]
fn times_inside() {
    let folder = Folder::new();
    let text = "1\n00:00:01,200 --> 00:00:03,900\nGood evening.\n2\n00:00:04,000 --> 00:00:06,750\nListen!\n\n3\n00:00:07,100 --> 00:00:09,800\nFather!\n";
    let subs = folder.write("subs.srt", text);
    let note = "times inside a caption's lines; a blank line may be missing";
    let ran = run(&["check", "--subs", &subs]);
    let line = format!("note: {note} ({subs}, line 5: \"00:00:04,000 --> 00:00:06,750\")");
    assert_eq!((ran.status, ran.text()), (0, &*format!("{subs}: sound\n{line}\n1 file checked, all sound\n")));
    let ran = run_play("retime", &["--subs", &subs]);
    assert_eq!(ran.err, format!("{subs}:5: {note}: \"00:00:04,000 --> 00:00:06,750\"\n{subs}: 2 shifted, 0 clipped, 0 dropped, 0 passed\n"));
    assert!(ran.text().contains("\n2\n00:00:04,000 --> 00:00:06,750\nListen!\n"));
    // the words of an ASS caption may have an arrow
    let ass = folder.write("subs.ass", "[Events]\nFormat: Start, End, Text\nDialogue: 0:00:01.20,0:00:03.90,a --> b\n");
    assert_eq!(run_play("retime", &["--subs", &ass]).err, format!("{ass}: 1 shifted, 0 clipped, 0 dropped, 0 passed\n"));
    let many = folder.write("many.vtt", format!("WEBVTT\n\n00:01.000 --> 00:02.000\n{}", "x --> y\n".repeat(53)));
    let ran = run(&["check", "--subs", &many]);
    assert_eq!(ran.text().lines().count(), 53);
    assert!(ran.text().ends_with(&format!("and 3 more such lines in {many}\n1 file checked, all sound\n")));
}

/// A sheet that is cut off at every block.
#[test]
fn cut_off() {
    let folder = Folder::new();
    let whole = read(&play("vtt", "sheet.bin"));
    for blocks in 0..whole.len() / 512 {
        let sheet = folder.write("sheet.bin", &whole[..512 * blocks]);
        let ran = run(&["check", "--sheet", &sheet]);
        let lines: Vec<&str> = ran.text().lines().collect();
        assert_eq!((ran.status, lines.len(), lines[1]), (1, 2, "1 file checked, 1 fault in 1"), "{blocks} blocks");
        assert!(lines[0].starts_with("refused 11: the sheet has a wrong length ("), "{}", lines[0]);
    }
}

#[test]
fn usage_of_check() {
    run(&["check"]).fails(2, &["bobbincrag check: name what to check: --sheet, --list, --subs", "usage: bobbincrag check [--sheet S] [--list L] [--subs C..]"]);
    run(&["check", "--sheet", "-", "--list", "-"]).fails(2, &["bobbincrag check: - is standard input, which can be read once"]);
    run(&["check", "--sheet", "none.bin"]).fails(1, &["cannot read none.bin: No such file or directory"]);
    let ran = run_with(&["check", "--subs", "-", "--kind", "vtt"], b"WEBVTT\n");
    assert_eq!((ran.status, ran.text()), (0, "standard input: sound\nnote: no caption was found in it: it was read as vtt (standard input)\n1 file checked, all sound\n"));
}

#[test]
fn help() {
    let ran = run(&["--help"]);
    assert_eq!((ran.status, ran.err.as_str()), (0, ""));
    for command in COMMANDS {
        assert!(ran.text().contains(&format!("\n  {command} ")), "{command}");
        for word in ["--help", "-h"] {
            let ran = run(&[command, "--sheet", "none", word]);
            assert_eq!((ran.status, ran.err.as_str()), (0, ""));
            assert!(ran.text().contains(&format!("usage: bobbincrag {command} ")) && ran.text().contains(&format!("Example:\n  bobbincrag {command} ")), "{}", ran.text());
        }
    }
    let version = run(&["--version"]);
    let rest = version.text().strip_prefix(concat!("bobbincrag ", env!("CARGO_PKG_VERSION"))).unwrap().trim_end();
    assert!(rest.is_empty() || rest.starts_with(" (") && rest.ends_with(')') && (rest.contains("commit ") || rest.contains("logic ")), "{rest}");
    run(&[]).fails(2, &["bobbincrag: no command is named", "usage: bobbincrag COMMAND .., see bobbincrag --help"]);
    run(&["cut"]).fails(2, &["bobbincrag: there is no command cut"]);
    run(&["--colour"]).fails(2, &["bobbincrag: there is no command --colour"]);
}

/// The options of a command's help.
fn options(command: &str) -> Vec<String> {
    let help = run(&[command, "--help"]);
    let rows = help.text().lines().filter_map(|l| l.strip_prefix("  -")).map(|l| format!("-{}", l.split("  ").next().unwrap()));
    rows.flat_map(|r| r.split(", ").map(|w| w.split(' ').next().unwrap().to_string()).collect::<Vec<_>>()).collect()
}

/// Every command and option stands in the manual page, and the page names no option that there is not.
#[test]
fn manual() {
    let page = String::from_utf8(read(&file("bindings/rust/bobbincrag.1"))).unwrap().replace("\\-", "-");
    let mut known = vec!["--help".to_string(), "--version".to_string()];
    for command in COMMANDS {
        let (_, part) = page.split_once(&format!(".SS {command}\n")).unwrap_or_else(|| panic!("no part about {command}"));
        let part = part.split("\n.S").next().unwrap();
        for option in options(command) {
            assert!(part.contains(&option), "{command} {option}");
            known.push(option);
        }
    }
    for word in page.split(|c: char| c.is_whitespace() || ",.()\"".contains(c)).filter(|w| w.starts_with("--")) {
        assert!(known.iter().any(|k| k == word), "{word}");
    }
    if let Ok(output) = Command::new("man").args(["--warnings", "-l", &file("bindings/rust/bobbincrag.1")]).env("MAN_KEEP_FORMATTING", "").env("LC_ALL", "C.UTF-8").output() {
        assert_eq!(String::from_utf8_lossy(&output.stderr), "");
    }
}

/// What bash offers behind some words.
fn offered(words: &[&str]) -> Vec<String> {
    let script = format!("eval \"$('{}' completions bash)\"; COMP_WORDS=(\"$@\"); COMP_CWORD=$(($# - 1)); _bobbincrag; printf '%s\\n' \"${{COMPREPLY[@]}}\"", common::COMMAND);
    let output = Command::new("bash").args(["-c", &script, "bash"]).args(words).output().unwrap();
    assert_eq!(String::from_utf8_lossy(&output.stderr), "");
    String::from_utf8(output.stdout).unwrap().lines().filter(|l| !l.is_empty()).map(String::from).collect()
}

#[test]
fn completions() {
    assert_eq!(offered(&["bobbincrag", ""]), [&COMMANDS[..], &["--help", "--version"]].concat());
    assert_eq!(offered(&["bobbincrag", "c"]), ["check", "cues", "census", "completions"]);
    assert_eq!(offered(&["bobbincrag", "retime", "--su"]), ["--subs"]);
    assert_eq!(offered(&["bobbincrag", "delay", "--kind", "s"]), ["srt"]);
    assert!(offered(&["bobbincrag", "retime", "--sheet", "x"]).is_empty());
    for command in COMMANDS {
        let long: Vec<String> = options(command).into_iter().filter(|o| o.starts_with("--")).chain(["--help".to_string()]).collect();
        assert_eq!(offered(&["bobbincrag", command, "--"]), long, "{command}");
    }
    run(&["completions", "fish"]).fails(2, &["bobbincrag completions: there are completions for bash, none for fish"]);
    run(&["completions"]).fails(2, &["bobbincrag completions: it takes the name of a shell, which is bash"]);
}
