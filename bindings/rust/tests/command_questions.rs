//! `bobbincrag map`, `why`, `census` and `delay`. What is expected is stored in the repository: the pages and numbers of the proved programs.
mod common;

use common::{file, play, read, run, run_play, Folder};

/// Of examples/play/ass, with the numbers that the proved programs `mapper` and `replay` tell (tools/test-command asks them).
const CENSUS: &str = "Of 6000 starts, one every 1/100 s in the first 0:01:00.00, a caption of 0:00:02.00 stays whole at 3898, is shortened at 450 and vanishes at 1652.\n";
const DELAY: &str = "Of 12001 shifts tried, +0.00 s loses fewest: 4 of 25 captions. No shift at all loses fewer than 0.\n";

#[test]
fn a_map() {
    let (sheet, list) = (file("crates/mapper/data/sheet.bin"), file("crates/mapper/data/trim.txt"));
    let ran = run(&["map", "--sheet", &sheet, "--list", &list]);
    assert_eq!((ran.status, ran.out), (0, read(&file("crates/mapper/stdout"))));
    let ran = run(&["map", "--sheet", &sheet, "--list", &list, "--inward"]);
    assert_eq!((ran.status, ran.text()), (0, "timescale 30000\n0 3 0 3 0 3003\n6 6 6006 0 3003 0\n"));
    let folder = Folder::new();
    let json = folder.path("map.json");
    assert_eq!(run(&["map", "--sheet", &sheet, "--list", &list, "--json", "a.mp4", "-o", &json]).status, 0);
    let text = String::from_utf8(read(&json)).unwrap();
    assert!(text.starts_with("{\n  \"video_timescale\": 30000,\n  \"frame_rate_num\": 30000,\n  \"frame_rate_den\": 1001,\n  \"input\": \"a.mp4\",\n  \"total_frames\": 10,\n  \"segments\": [\n    {\n      \"source_start_frame\": 0,\n"));
    assert!(text.ends_with("      \"duration\": 4004\n    }\n  ]\n}\n"));
    assert_eq!(run(&["map", "--map", &json]).out, read(&file("crates/mapper/stdout")));
    assert_eq!(run(&["map", "--map", &json, "--json", "a.mp4"]).text(), text);
    run(&["map", "--sheet", &sheet, "--json", &"a".repeat(1025)]).fails(1, &["refused 16: an argument is out of range, or a lent buffer too short (the path has 1025 bytes, at most 1,024 can stand there)"]);
    run(&["map", "--sheet", &sheet, "--json", ""]).fails(2, &["bobbincrag map: --json needs PATH"]);
    run(&["map", "--sheet", &json, "-o", &json]).fails(2, &[&format!("bobbincrag map: {json} is read, and would be lost: write to another file")]);
}

/// The pages of the program `why`: each question by itself.
#[test]
fn why_pages() {
    let pages = String::from_utf8_lossy(&read(&file("crates/why_cases/stdout"))).into_owned();
    let mut asked = 0;
    for name in ["table", "odd", "no_length", "whole_play", "no_list", "turned"] {
        let (_, page) = pages.split_once(&format!("{name}:\n")).unwrap();
        let page = page.split("\n\n").next().unwrap();
        let folder = file(&format!("crates/why_cases/data/{name}"));
        let (sheet, list) = (format!("{folder}/sheet.bin"), format!("{folder}/trim.txt"));
        for answer in answers(page) {
            let words: Vec<&str> = answer.lines().next().unwrap().split(' ').filter(|w| !w.is_empty()).collect();
            if words.len() != 3 || !["ass", "srt", "vtt"].contains(&words[0]) || answer.contains('\u{FFFD}') {
                continue;
            }
            let listed: &[&str] = if name == "no_list" { &[] } else { &["--list", &list] };
            let ran = run(&[&["why", "--sheet", &sheet], listed, &["--kind", words[0], words[1], words[2]]].concat());
            if answer.contains("can't be read") {
                assert!(ran.status == 1 && ran.err.starts_with("refused 22: a caption's time can't be read ("), "{answer} {ran:?}");
            } else {
                assert_eq!((ran.status, ran.text()), (0, &*answer.replacen(answer.lines().next().unwrap(), &words.join(" "), 1)), "{name}");
            }
            asked += 1;
        }
    }
    assert!(asked > 40, "{asked}");
}

/// The answers of a page, each with its question.
fn answers(page: &str) -> Vec<String> {
    let mut all: Vec<String> = Vec::new();
    for line in page.lines() {
        match all.last_mut() {
            Some(answer) if line.starts_with("  ") => *answer += &format!("{line}\n"),
            _ => all.push(format!("{line}\n")),
        }
    }
    all
}

/// Of a text: what is dropped and clipped, and one line with every stretch.
#[test]
fn why_of_a_text() {
    let folder = Folder::new();
    let (sheet, list) = (file("crates/mapper/data/sheet.bin"), file("crates/mapper/data/trim.txt"));
    let subs = folder.write("subs.srt", "1\n00:00:00,210 --> 00:00:00,250\nkept\n\n2\n00:00:00,120 --> 00:00:00,200\n<i>Gone</i>\nnow\n\n3\n00:00:00.050 --> 00:00:00.250\nShort\n");
    let ask = |more: &[&str]| run(&[&["why", "--sheet", &sheet, "--list", &list, "--subs", &subs], more].concat());
    let (one, two) = ("segment 1 of 2 (00:00:00,000 to 00:00:00,101 of the recording, 00:00:00,000 to 00:00:00,101 of the cut)", "segment 2 of 2 (00:00:00,200 to 00:00:00,334 of the recording, 00:00:00,100 to 00:00:00,234 of the cut)");
    let gone = format!("{subs}:6: 00:00:00,120 to 00:00:00,200: \"Gone now\"\n  dropped: it meets no kept segment\n    {one} ends at or before the caption's start\n    {two} starts at or after the caption's end\n");
    let short = format!("{subs}:11: 00:00:00,050 to 00:00:00,250: \"Short\"\n  kept in {one}, at its end 4497 ticks (00:00:00,150) cut off\n");
    let ran = ask(&[]);
    assert_eq!((ran.status, ran.text()), (0, &*format!("{gone}{short}")), "{}", ran.err);
    assert_eq!(ask(&["--line", "6"]).text(), gone);
    assert_eq!(ask(&["--line", "8"]).text(), gone);
    assert_eq!(ask(&["--line", "2"]).text(), format!("{subs}:2: 00:00:00,210 to 00:00:00,250: \"kept\"\n  kept in {two}\n"));
    ask(&["--line", "1"]).fails(1, &[&format!("no caption stands at line 1 of {subs}")]);
    assert_eq!(ask(&["--line", "12"]).text(), short);
    ask(&["--line", "13"]).fails(1, &[&format!("no caption stands at line 13: {subs} has 12 lines")]);
    ask(&["--line", "0"]).fails(2, &["bobbincrag why: --line is a line, counted from 1"]);
    ask(&["0:0:1", "0:0:2"]).fails(2, &["bobbincrag why: it takes START and END, or --subs, not both"]);
    let whole = run(&["why", "--sheet", &sheet, "--subs", &subs]);
    assert_eq!((whole.status, whole.text()), (0, &*format!("{subs}: every caption is kept whole\n")));
    let bad = folder.write("bad.srt", "1\n00:00:00,210 --> x\n");
    run(&["why", "--sheet", &sheet, "--subs", &bad]).fails(1, &[&format!("refused 22: a caption's time can't be read ({bad}, line 2: \"00:00:00,210 --> x\")")]);
}

#[test]
fn why_usage() {
    run_play("why", &["0:00:01.00", "0:00:02.00"]).fails(2, &["bobbincrag why: say the kind of the times with --kind"]);
    run_play("why", &["--kind", "ass", "0:00:01.00"]).fails(2, &["bobbincrag why: it takes START and END, or captions by --subs"]);
    run_play("why", &["--kind", "ass", "0:00:01.00", "0:00:02.00", "--line", "2"]).fails(2, &["bobbincrag why: --line names a caption of --subs"]);
    run_play("why", &["--kind", "ass", "0:60:01.00", "0:00:02.00"]).fails(1, &["refused 22: a caption's time can't be read (0:60:01.00)"]);
    assert_eq!(run_play("why", &["--kind", "ass", "9999:59:59.99", "9999:59:59.99"]).status, 0);
    run_play("why", &["--kind", "srt", "0:0:1,0", "0:0:2,0 --> 0:0:3,0"]).fails(1, &["refused 22: a caption's time can't be read (0:0:2,0 --> 0:0:3,0)"]);
}

#[test]
fn the_census() {
    let ran = run_play("census", &["2", "1:00"]);
    assert_eq!((ran.status, ran.text()), (0, CENSUS));
    // the same in thousandths: starts in the first second of document 01's cut, by the caption rule
    let (sheet, list) = (file("crates/mapper/data/sheet.bin"), file("crates/mapper/data/trim.txt"));
    let (mut whole, mut cut, mut gone) = (0, 0, 0);
    for start in 0..1_000u64 {
        let (a, b) = (start * 30, (start + 40) * 30);
        match [(0, 3_003), (6_006, 10_010)].into_iter().find(|(from, to)| a < *to && *from < b) {
            Some((from, to)) if from <= a && b <= to => whole += 1,
            Some(_) => cut += 1,
            None => gone += 1,
        }
    }
    let told = format!("Of 1000 starts, one every 1/1000 s in the first 00:00:01.000, a caption of 00:00:00.040 stays whole at {whole}, is shortened at {cut} and vanishes at {gone}.\n");
    assert_eq!(run(&["census", "--sheet", &sheet, "--list", &list, "--kind", "vtt", "0.04", "1"]).text(), told);
    assert_eq!(run(&["census", "--sheet", &sheet, "--list", &list, "--kind", "srt", "0.04", "0:0:1.000"]).text(), told);
    for (length, span) in [("2.555", "1"), ("x", "1"), ("", "1"), ("1:2:3:4", "1"), ("1", "-"), ("1.", "1"), ("+1", "1")] {
        assert_eq!(run_play("census", &[length, span]).status, 2, "{length} {span}");
    }
    for length in ["100:00:00.01", "99999999999999999999", "9999999999999999:00"] {
        run_play("census", &[length, "1"]).fails(1, &["refused 16: an argument is out of range, or a lent buffer too short (LENGTH and SPAN are at most 100:00:00)"]);
    }
    run_play("census", &["2"]).fails(2, &["bobbincrag census: it takes LENGTH and SPAN, which are times: 2.5, 1:30, 1:00:00"]);
    run_play("census", &["2", "3", "4"]).fails(2, &["bobbincrag census: 4 is one word too many"]);
}

#[test]
fn the_delay() {
    let ran = run_play("delay", &["--subs", &play("ass", "subs.ass")]);
    assert_eq!((ran.status, ran.text()), (0, DELAY));
    let folder = Folder::new();
    let (sheet, list) = (file("crates/mapper/data/sheet.bin"), file("crates/mapper/data/trim.txt"));
    // request 2.14 on document 01's map: a caption from 9 to 12 hundredths fits with 2 less
    let subs = folder.write("subs.ass", "[Events]\nFormat: Start, End, Text\nDialogue: 0:00:00.09,0:00:00.12,x\nDialogue: y\n");
    let ask = |more: &[&str]| run(&[&["delay", "--sheet", &sheet, "--list", &list, "--subs", &subs], more].concat());
    ask(&[]).says(0, &["1 captions are left out: they have no times that are read"]);
    assert_eq!(ask(&[]).text(), "Of 12001 shifts tried, -0.02 s loses fewest: 0 of 1 captions. No shift at all loses fewer than 0.\n");
    assert_eq!(ask(&["--budget", "3"]).text(), "Of 3 shifts tried, +0.00 s loses fewest: 1 of 1 captions. No shift at all loses fewer than 0.\n");
    let none = "more than 4,096 captions are to be shifted, or no shift is to be tried";
    ask(&["--budget", "0"]).fails(1, &[&format!("refused 29: {none} ({subs}: say --budget 1 or more)")]);
    ask(&["--budget", "x"]).fails(2, &["bobbincrag delay: --budget is how many shifts to try"]);
    let many = "00:00.000 --> 00:00.010\n\n".repeat(4_097);
    let many = folder.write("many.vtt", format!("WEBVTT\n\n{many}"));
    run(&["delay", "--sheet", &sheet, "--subs", &many]).fails(1, &[&format!("refused 29: {none} ({many}: it has 4097 captions, and 4096 at most can be shifted: split it in 2 files)")]);
    run(&["delay", "--sheet", &sheet]).fails(2, &["bobbincrag delay: name the captions with --subs"]);
}
