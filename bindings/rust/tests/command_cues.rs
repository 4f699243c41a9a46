//! `bobbincrag cues`: every caption with its fate, beside what `retime` writes and what `why` tells.
mod common;

use common::{file, play, read, run, run_play, run_with, Folder};

/// Document 01's small map, its worked captions and what they become.
const WORKED: [(&str, &str, &str); 8] = [
    ("0:00:00.05,0:00:00.25", "clipped", "0.05,0.11,1,0.00,0.15,[4]"),
    ("0:00:00.12,0:00:00.20", "dropped", "null,null,null,null,null,[]"),
    ("0:00:00.21,0:00:00.25", "shifted", "0.10,0.15,2,0.00,0.00,[]"),
    ("0:00:00.20,0:00:00.21", "clipped", "0.10,0.11,2,0.01,0.00,[]"),
    ("0:00:00.00,0:00:00.00", "dropped", "null,null,null,null,null,[]"),
    ("0:00:00.05,0:00:00.05", "shifted", "0.05,0.05,1,0.00,0.00,[]"),
    ("0:00:00.07,0:00:00.05", "shifted", "0.07,0.05,1,0.00,0.00,[]"),
    ("0:00:00.05", "passed", "null,null,null,null,null,[2]"),
];

fn small() -> [String; 4] {
    ["--sheet".into(), file("crates/mapper/data/sheet.bin"), "--list".into(), file("crates/mapper/data/trim.txt")]
}

#[test]
fn worked() {
    let folder = Folder::new();
    let lines: String = WORKED.iter().map(|(times, ..)| format!("Dialogue: {times}{}\n", if times.len() > 12 { ",\"c\\t\"" } else { "" })).collect();
    let subs = folder.write("subs.ass", format!("[Events]\nFormat: Start, End, Text\n{lines}"));
    let cut = small();
    let cut: Vec<&str> = cut.iter().map(String::as_str).collect();
    let ran = run(&[&["cues"], &cut[..], &["--subs", &subs, "--json"]].concat());
    assert_eq!((ran.status, ran.err.as_str()), (0, ""));
    let told: Vec<&str> = ran.text().lines().collect();
    assert_eq!(told.len(), WORKED.len());
    for (k, (times, fate, answer)) in WORKED.iter().enumerate() {
        let seconds = |t: &str| t.trim_start_matches("0:00:0").to_string();
        let (start, end) = times.split_once(',').map_or(("null".to_string(), "null".to_string()), |(a, b)| (seconds(a), seconds(b)));
        let [new_start, new_end, stretch, cut_start, cut_end, warnings] = answer.split(',').collect::<Vec<_>>().try_into().unwrap();
        let words = if *fate == "passed" { "Dialogue: 0:00:00.05" } else { "\\\"c\\\\t\\\"" };
        let line = format!(
            "{{\"file\":\"{subs}\",\"line\":{},\"start\":{start},\"end\":{end},\"fate\":\"{fate}\",\"new_start\":{new_start},\"new_end\":{new_end},\"stretch\":{stretch},\"cut_start\":{cut_start},\"cut_end\":{cut_end},\"warnings\":{warnings},\"words\":\"{words}\"}}",
            k + 3
        );
        assert_eq!(told[k], line);
    }
}

/// The play in each kind: as many of each fate as `retime` counts, and the new times are those of `expected`, in its order.
#[test]
fn the_play() {
    for kind in ["ass", "srt", "vtt"] {
        let subs = play(kind, &format!("subs.{kind}"));
        let ran = run_play("cues", &["--subs", &subs, "--tsv"]);
        assert_eq!((ran.status, ran.err.as_str()), (0, ""));
        let rows: Vec<Vec<&str>> = ran.text().lines().map(|l| l.split('\t').collect()).collect();
        assert_eq!(rows[0].join(" "), "file line start end fate new_start new_end stretch cut_start cut_end warnings words");
        assert!(rows.iter().all(|row| row.len() == 12));
        let retimed = run_play("retime", &["--subs", &subs]);
        let count = |fate: &str| rows.iter().filter(|r| r[4] == fate).count();
        assert!(retimed.err.ends_with(&format!("{subs}: {} shifted, {} clipped, {} dropped, {} passed\n", count("shifted"), count("clipped"), count("dropped"), count("passed"))), "{}", retimed.err);
        // every new time stands in the retimed text, one caption behind the other
        let expected = String::from_utf8(read(&play(kind, "expected"))).unwrap();
        let mut rest = expected.as_str();
        for row in rows[1..].iter().filter(|r| !r[5].is_empty()) {
            for time in [row[5], row[6]] {
                rest = rest.split_once(time).unwrap_or_else(|| panic!("no {time} of {row:?}")).1;
            }
        }
        // and every warning is told with its caption
        for row in rows[1..].iter().filter(|r| !r[10].is_empty()) {
            assert!(row[10].split(' ').all(|n| retimed.err.contains(&format!("{subs}:{}: warning {n}: ", row[1]))), "{row:?}");
        }
        assert_eq!(rows[1..].iter().map(|r| r[10].split(' ').filter(|n| !n.is_empty()).count()).sum::<usize>(), retimed.err.matches(": warning ").count());
    }
}

/// Several files, one after the other; a file; standard input.
#[test]
fn where_it_goes() {
    let folder = Folder::new();
    let [ass, srt] = ["ass", "srt"].map(|k| play(k, &format!("subs.{k}")));
    let alone = [&ass, &srt].map(|subs| run_play("cues", &["--subs", subs, "--json"]).text().to_string());
    let out = folder.path("cues.json");
    let ran = run_play("cues", &["--subs", &ass, &srt, "--json", "-o", &out]);
    assert_eq!((ran.status, ran.text(), ran.err.as_str()), (0, "", ""));
    assert_eq!(String::from_utf8(read(&out)).unwrap(), alone.concat());
    let cut = common::cut();
    let words: Vec<&str> = ["cues"].into_iter().chain(cut.iter().map(String::as_str)).chain(["--subs", "-", "--kind", "srt", "--json"]).collect();
    assert_eq!(run_with(&words, &read(&srt)).text(), alone[1].replace(&format!("\"{srt}\""), "\"standard input\""));
}

/// A faulty text among several: its place, and nothing is written.
#[test]
fn refused() {
    let folder = Folder::new();
    let bad = folder.write("bad.srt", "1\n00:00:01,000 --> 00:00:02,000\nA\n\n2\n00:00:03,000 --> soon\nB\n");
    let out = folder.path("out");
    run_play("cues", &["--subs", &play("srt", "subs.srt"), &bad, "--tsv", "-o", &out]).fails(1, &[&format!("refused 22: a caption's time can't be read ({bad}, line 6: \"00:00:03,000 --> soon B\")")]);
    assert_eq!(folder.names(), ["bad.srt"]);
    for words in [&["--tsv", "--json"][..], &[]] {
        run_play("cues", &[&["--subs", &bad], words].concat()).fails(2, &["bobbincrag cues: say --json or --tsv"]);
    }
    run_play("cues", &["--tsv"]).fails(2, &["bobbincrag cues: name the captions with --subs"]);
    run_play("cues", &["--subs", &bad, "--tsv", "-o", &bad]).fails(2, &[&format!("bobbincrag cues: {bad} is read, and would be lost: write to another file")]);
}
