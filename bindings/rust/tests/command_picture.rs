//! `bobbincrag picture`, from files to a file. What is expected is what `retime` tells and writes.
mod common;

use common::{cut, file, play, ran, read, run, run_play, run_with, sheet, Folder, Ran, COMMAND};
use retimer::captions::{self, Caption, Times};
use retimer::Kind;
use std::process::{Command, Stdio};

fn subs(kind: Kind) -> String {
    play(kind.name(), &format!("subs.{}", kind.name()))
}

/// An XML text, read: tags closed in order, attributes quoted, no bare `<` or `&`, no control characters. It answers what stands in elements of a name.
fn inside<'x>(xml: &'x str, name: &str) -> Vec<&'x str> {
    assert!(xml.chars().all(|c| c == '\n' || !c.is_control()), "a control character");
    let (mut open, mut found, mut at) = (Vec::new(), Vec::new(), 0);
    while let Some(start) = xml[at..].find('<').map(|k| at + k) {
        plain(&xml[at..start]);
        let end = start + xml[start..].find('>').expect("a tag ends");
        let tag = &xml[start + 1..end];
        at = end + 1;
        match tag.strip_prefix('/') {
            Some(closed) => {
                let (opened, from) = open.pop().expect("an open tag");
                assert_eq!(opened, closed);
                found.extend((closed == name).then(|| &xml[from..start]));
            }
            None => {
                assert!(tag.matches('"').count().is_multiple_of(2), "{tag}");
                plain(tag);
                if !tag.ends_with('/') {
                    open.push((tag.split(' ').next().unwrap(), at));
                }
            }
        }
    }
    assert!(open.is_empty() && xml[at..].trim().is_empty(), "{open:?} still open");
    found
}

/// Each `&` begins one of four names.
fn plain(text: &str) {
    for (k, _) in text.match_indices('&') {
        assert!(["&lt;", "&gt;", "&amp;", "&quot;"].iter().any(|e| text[k..].starts_with(e)), "{}", &text[k..]);
    }
}

/// A caption's times as the picture shows them.
fn times(kind: Kind, caption: &Caption<'_>) -> String {
    let Times::Read { start, stop } = caption.times else { panic!("{caption:?}") };
    let time = |units: u64| {
        let seconds = units / kind.units();
        let part = format!("{:03}", units % kind.units() * (1000 / kind.units()));
        format!("{}:{:02}:{:02}.{}", seconds / 3600, seconds / 60 % 60, seconds % 60, &part[..if kind == Kind::Ass { 2 } else { 3 }])
    };
    format!("{} – {}", time(start), time(stop))
}

/// The picture of a run, read.
#[track_caller]
fn drawn(ran: &Ran) -> &str {
    assert_eq!(ran.status, 0, "{}", ran.err);
    assert!(ran.text().starts_with("<svg ") && ran.text().ends_with("</svg>\n"));
    inside(ran.text(), "svg");
    ran.text()
}

/// Every caption of `before` in a picture: with its line and times, and with those of `after`, the retimed text, where it is there.
fn told(kind: Kind, picture: &str, before: &[u8], after: &[u8]) -> usize {
    let titles = inside(picture, "title");
    let mut kept = captions::read(kind, after).unwrap().captions.into_iter().peekable();
    let mut dropped = 0;
    for caption in captions::read(kind, before).unwrap().captions {
        let head = format!("line {}: {}, ", caption.line, times(kind, &caption));
        let told = titles.iter().find(|t| t.starts_with(&head)).unwrap_or_else(|| panic!("no {head}"));
        let words = caption.words().replace('&', "&amp;").replace('<', "&lt;").replace('>', "&gt;").replace('"', "&quot;");
        assert!(told.ends_with(&format!(": {words}")), "{told}");
        if told[head.len()..].starts_with("dropped") {
            dropped += 1;
            assert!(inside(picture, "text").contains(&format!("line {}", caption.line).as_str()), "{told}");
            continue;
        }
        let new = kept.next().expect("a kept caption");
        assert_eq!(caption.words(), new.words());
        assert!(told.contains(&format!(" to {} of the cut", times(kind, &new))), "{told} {}", times(kind, &new));
    }
    assert!(kept.next().is_none());
    dropped
}

/// The example play in the three kinds: every caption with its times before and behind, and the counts of `retime`.
#[test]
fn the_example_play() {
    for kind in Kind::ALL {
        let name = subs(kind);
        let ran = run_play("picture", &["--subs", &name]);
        let picture = drawn(&ran);
        let dropped = told(kind, picture, &read(&name), &read(&play(kind.name(), "expected")));
        assert!(dropped == 2 && picture.contains(">What vanished: 2 captions dropped</text>"), "{dropped}");
        let retimed = run_play("retime", &["--subs", &name, "-o", "/dev/null"]);
        assert_eq!(ran.err.lines().collect::<Vec<_>>(), [retimed.err.lines().last().unwrap()]);
        let counts = ran.err.trim_end().rsplit(": ").next().unwrap().replace(" passed", " passed unchanged");
        let shown = inside(picture, "text").into_iter().find(|t| t.contains(" are dropped</tspan>")).unwrap();
        for count in counts.split(", ").filter(|c| !c.ends_with("dropped")) {
            assert!(shown.contains(count), "{count} {shown}");
        }
        for warning in retimed.err.lines().filter(|l| l.contains(": warning ")) {
            let (line, rest) = warning.strip_prefix(&format!("{name}:")).unwrap().split_once(": warning ").unwrap();
            let number = rest.split(':').next().unwrap();
            assert!(inside(picture, "title").iter().any(|t| t.starts_with(&format!("line {line}:")) && t.contains(&format!(", warning {number}"))), "{warning}");
        }
        assert!(inside(picture, "title").contains(&format!("subs.{}", kind.name()).as_str()));
    }
}

/// docs/play.svg is what the command draws.
#[test]
fn the_picture_in_the_docs() {
    let ran = run_play("picture", &["--subs", &subs(Kind::Ass)]);
    assert!(ran.out == read(&file("docs/play.svg")), "docs/play.svg is to be drawn anew: bobbincrag picture --sheet examples/play/ass/sheet.bin --list examples/play/ass/trim.txt --subs examples/play/ass/subs.ass -o docs/play.svg");
}

/// By a map as the cutter stores it: the same captions; how long the recording is, is not known.
#[test]
fn by_a_map() {
    let folder = Folder::new();
    let map = folder.path("map.json");
    assert_eq!(run_play("map", &["--json", "play.mp4", "-o", &map]).status, 0);
    for kind in Kind::ALL {
        let ran = run(&["picture", "--map", &map, "--subs", &subs(kind)]);
        assert_eq!(told(kind, drawn(&ran), &read(&subs(kind)), &read(&play(kind.name(), "expected"))), 2);
        assert!(drawn(&ran).contains("The recording's end is not known, the cut lasts 0:01:18 in 3 stretches."));
    }
    let whole = run_play("picture", &["--subs", &subs(Kind::Srt)]);
    assert!(drawn(&whole).contains("The recording lasts 0:01:40, the cut lasts 0:01:18 in 3 stretches."));
}

/// Ticks so coarse that units do not lie on them: times are shown as they are written.
#[test]
fn coarse_ticks() {
    let folder = Folder::new();
    let list = folder.write("trim.txt", "Trim(10,40) ++ Trim(60,90)");
    for (timescale, ticks) in [(25, 1), (30, 1), (600, 20), (1_999, 67), (2_000, 67), (90_000, 3_003)] {
        let sheet = retimer::Sheet::in_order(timescale, (timescale, ticks as u32), vec![ticks; 100], 0..100).to_bytes().unwrap();
        let sheet = folder.write("sheet.bin", sheet);
        for kind in Kind::ALL {
            let caption = |k: u64| {
                let (a, b) = (kind.time(111 * k * kind.units() / 1000), kind.time((111 * k + 97) * kind.units() / 1000));
                match kind {
                    Kind::Ass => format!("Dialogue: {a},{b},word\n"),
                    Kind::Srt | Kind::Vtt => format!("{a} --> {b}\nword\n\n"),
                }
            };
            let head = ["[Events]\nFormat: Start, End, Text\n", "", "WEBVTT\n\n"][kind.number() as usize];
            let text = head.to_string() + &(0..30).map(caption).collect::<String>();
            let subs = folder.write(&format!("subs.{}", kind.name()), &text);
            let retimed = run(&["retime", "--sheet", &sheet, "--list", &list, "--subs", &subs]);
            let ran = run(&["picture", "--sheet", &sheet, "--list", &list, "--subs", &subs]);
            assert!(told(kind, drawn(&ran), text.as_bytes(), &retimed.out) > 8, "{timescale}");
        }
    }
}

/// An empty list keeps all, narrowed trims may keep nothing, and there may be no captions.
#[test]
fn nothing_to_show() {
    let folder = Folder::new();
    let empty = folder.write("empty.txt", "");
    let whole = run(&["picture", "--sheet", &play("ass", "sheet.bin"), "--list", &empty, "--subs", &subs(Kind::Srt)]);
    assert!(drawn(&whole).contains("Nothing vanished: no caption is dropped"));
    whole.says(0, &[&format!("{empty} is blank: the whole recording is kept"), &format!("{}: 22 shifted, 0 clipped, 0 dropped, 0 passed", subs(Kind::Srt))]);
    let none = folder.write("none.vtt", "WEBVTT\n");
    let ran = run_play("picture", &["--subs", &none]);
    assert!(drawn(&ran).contains("There are no captions"));
    ran.says(0, &[&format!("{none}: 0 shifted, 0 clipped, 0 dropped, 0 passed")]);
    let (sheet, list) = (folder.write("sheet.bin", sheet(30, 7)), folder.write("trim.txt", "Trim(15,20)"));
    let one = folder.write("one.srt", "00:00:00,510 --> 00:00:00,600\n<b>& \"gone\"\n");
    let ran = run(&["picture", "--inward", "--sheet", &sheet, "--list", &list, "--subs", &one]);
    assert!(drawn(&ran).contains("What vanished: 1 caption dropped") && drawn(&ran).contains("&amp; &quot;gone&quot;"), "{}", ran.text());
}

/// Captions without times pass: they are listed, with their warnings.
#[test]
fn passed() {
    let folder = Folder::new();
    let subs = folder.write("odd.ass", "[Events]\nDialogue: 1,2,above\nFormat: Start, End, Text\nDialogue: 0:00:01.00\nDialogue: 0:00:02.00,0:00:03.00,kept\n");
    let ran = run_play("picture", &["--subs", &subs]);
    let picture = drawn(&ran);
    ran.says(0, &[&format!("{subs}: 1 shifted, 0 clipped, 0 dropped, 2 passed")]);
    let texts = inside(picture, "text");
    assert!(["line 2", "line 4"].iter().all(|l| texts.contains(l)) && texts.iter().filter(|t| **t == "no times are read").count() == 2, "{texts:?}");
    assert!(["its Format line names no Start or no End", "it has fewer fields than the Format line"].iter().all(|w| texts.contains(w)));
}

/// Refused: the place, and a file that was there stays.
#[test]
fn refused() {
    let folder = Folder::new();
    let out = folder.write("out.svg", "old");
    let bad = folder.write("bad.srt", "1\n00:00:01,000 --> 00:00:02,000\nfine\n\n2\n00:00:01,000 --> soon\nA line\n");
    run_play("picture", &["--subs", &bad, "-o", &out]).fails(1, &[&format!("refused 22: a caption's time can't be read ({bad}, line 6: \"00:00:01,000 --> soon A line\")")]);
    let list = folder.write("trim.txt", "Trim(9,1)");
    let ran = run(&["picture", "--sheet", &play("ass", "sheet.bin"), "--list", &list, "--subs", &subs(Kind::Ass), "-o", &out]);
    assert!(ran.fails(1, &[]).err.starts_with("refused 4: a is greater than b ("), "{}", ran.err);
    assert_eq!((folder.read("out.svg"), folder.names()), (b"old".to_vec(), ["bad.srt", "out.svg", "trim.txt"].map(String::from).to_vec()));
    let ran = run_play("picture", &["--subs", &subs(Kind::Ass), "-o", &out]);
    assert_eq!((ran.status, ran.text(), folder.read("out.svg")), (0, "", read(&file("docs/play.svg"))));
}

#[test]
fn usage() {
    let folder = Folder::new();
    let copy = folder.write("subs.srt", read(&subs(Kind::Srt)));
    run_play("picture", &[]).fails(2, &["bobbincrag picture: name the captions with --subs"]);
    run_play("picture", &["--subs", "play.txt"]).fails(2, &["bobbincrag picture: the ending of play.txt tells no kind: say --kind ass, srt or vtt"]);
    run_play("picture", &["--subs", &copy, "-o", &copy]).fails(2, &[&format!("bobbincrag picture: {copy} is read, and would be lost: write to another file")]);
    run(&["picture", "--subs", &copy]).fails(2, &["bobbincrag picture: name the frame sheet with --sheet"]);
    let words: Vec<String> = cut();
    let words: Vec<&str> = ["picture"].into_iter().chain(words.iter().map(String::as_str)).chain(["--subs", "-", "--kind", "srt"]).collect();
    let ran = run_with(&words, &read(&copy));
    assert!(inside(drawn(&ran), "title").contains(&"standard input") && ran.err.starts_with("standard input: 18 shifted"), "{}", ran.err);
}

/// Standard output that is closed or full: a sentence, status 1, no panic.
#[cfg(target_os = "linux")]
#[test]
fn closed() {
    let mut child = Command::new(COMMAND).arg("picture").args(cut()).args(["--subs", "-", "--kind", "srt"]).stdin(Stdio::piped()).stdout(Stdio::piped()).stderr(Stdio::piped()).spawn().unwrap();
    drop(child.stdout.take());
    let mut input = child.stdin.take().unwrap();
    std::io::Write::write_all(&mut input, &read(&subs(Kind::Srt))).unwrap();
    drop(input);
    let closed = ran(child.wait_with_output().unwrap());
    assert_eq!((closed.status, closed.err.as_str()), (1, "cannot write standard output: Broken pipe\n"));
    run_play("picture", &["--subs", &subs(Kind::Srt), "-o", "/dev/full"]).fails(1, &["cannot write /dev/full: No space left on device"]);
}
