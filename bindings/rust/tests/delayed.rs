//! Captions that are delayed before they are retimed: worked by hand, and beside captions whose times were moved before.
mod common;
use common::{run, run_play, run_with, Folder, Random};
use retimer::{retime, Kind, Map, Segment, Undelayed};

fn of(source: u64, output: u64, duration: u64) -> Segment {
    Segment { source, output, duration, ..Segment::default() }
}

/// 30,000 ticks a second; kept are 0 to 2 s, and 4 to 7 s, which is 2 to 5 s of the cut.
fn worked() -> Map {
    Map::from_segments(30_000, &[of(0, 0, 60_000), of(120_000, 60_000, 90_000)])
}

fn srt(times: &[(u64, u64)]) -> Vec<u8> {
    let block = |(k, (a, b)): (usize, &(u64, u64))| format!("{k}\n{} --> {}\nx\n\n", Kind::Srt.time(*a), Kind::Srt.time(*b));
    times.iter().enumerate().map(block).collect::<String>().into_bytes()
}

/// The times of each caption of a text.
fn times(text: &[u8]) -> Vec<(String, String)> {
    let lines = std::str::from_utf8(text).unwrap().lines().filter_map(|l| l.split_once(" --> "));
    lines.map(|(a, b)| (a.trim_start_matches("00:00:0").to_string(), b.trim_start_matches("00:00:0").to_string())).collect()
}

/// Answers worked by hand: what a caption at t + d would become.
#[test]
fn by_hand() {
    let captions = srt(&[(0, 500), (500, 1_500), (1_200, 1_900), (2_000, 2_500), (2_900, 3_300), (4_500, 6_500)]);
    let through = |delay: i64| {
        let retimed = retime(Kind::Srt, &worked().delayed(delay).unwrap(), &captions).unwrap();
        (times(&retimed.text), retimed.counts.to_string())
    };
    let rows = |rows: &[(&str, &str)]| rows.iter().map(|(a, b)| (a.to_string(), b.to_string())).collect::<Vec<_>>();
    // as they are: 2.0 to 2.5 s is cut away, 2.9 to 3.3 s too
    assert_eq!(through(0), (rows(&[("0,000", "0,500"), ("0,500", "1,500"), ("1,200", "1,900"), ("2,500", "4,500")]), "4 shifted, 0 clipped, 2 dropped, 0 passed".into()));
    // a second later: 1.0 to 1.5; 1.5 to 2.0 of 2.5; 2.2 to 2.9 dropped; 3.0 to 3.5 dropped; 4.0 of 3.9 to 4.3; 5.5 to 7.0 of 7.5
    assert_eq!(through(1_000), (rows(&[("1,000", "1,500"), ("1,500", "2,000"), ("2,000", "2,300"), ("3,500", "5,000")]), "1 shifted, 3 clipped, 2 dropped, 0 passed".into()));
    // a second earlier: the first lies before 0; 0 to 0.5 of the second; 0.2 to 0.9; 1.0 to 1.5; 1.9 to 2.0; 4.0 to 5.5 of 3.5 to 5.5
    assert_eq!(through(-1_000), (rows(&[("0,000", "0,500"), ("0,200", "0,900"), ("1,000", "1,500"), ("1,900", "2,000"), ("2,000", "3,500")]), "2 shifted, 3 clipped, 1 dropped, 0 passed".into()));
    // 2.5 s later the first stretch is past for every caption: 2.5 to 3.0 and 3.0 to 4.0 dropped; 4.0 of 3.7 to 4.4; 4.5 to 5.0; 5.4 to 5.8; 7.0 to 9.0 dropped
    assert_eq!(worked().delayed(2_500).unwrap(), Map::from_segments(30_000, &[of(0, 60_000, 0), of(45_000, 60_000, 90_000)]));
    assert_eq!(through(2_500), (rows(&[("2,000", "2,400"), ("2,500", "3,000"), ("3,400", "3,800")]), "2 shifted, 1 clipped, 3 dropped, 0 passed".into()));
    assert_eq!(worked().delayed(0), Ok(worked()));
}

/// A delay that is no whole number of ticks makes them finer: 12,800 ticks a second and 5.554 s are 71,091.2 ticks.
#[test]
fn finer_ticks() {
    let map = Map::from_segments(12_800, &[of(128_000, 0, 12_800)]);
    assert_eq!(map.delayed(5_554), Ok(Map::from_segments(64_000, &[of(640_000 - 355_456, 0, 64_000)])));
    assert_eq!(map.delayed(5_555), Ok(Map::from_segments(12_800, &[of(128_000 - 71_104, 0, 12_800)])));
    assert_eq!(Map::from_segments(999_999_999, &[of(0, 0, 1)]).delayed(1), Err(Undelayed::NotInTicks));
    assert_eq!(Map::from_segments(1_000, &[of(1 << 52, 0, 1 << 52)]).delayed(-1), Err(Undelayed::TooFar));
    assert_eq!(Map::from_segments(1_000, &[of(0, 1 << 52, 1 << 52)]).delayed(-1).map(|m| m.numbers()[2]), Ok(1));
    assert_eq!(Map::from_segments(25, &[of(1 << 50, 0, 1 << 50)]).delayed(1), Err(Undelayed::TooFar));
    assert_eq!(Map::from_segments(1_000, &[of(0, 0, 1)]).delayed(i64::MIN), Err(Undelayed::TooFar));
    assert_eq!(Map::from_segments(1_000, &[of(0, 5, 1)]).delayed(i64::MAX), Ok(Map::from_segments(1_000, &[of(0, 6, 0)])));
}

/// Random captions through random cuts: delayed by the map, or moved before by this test's own arithmetic, they become the same text, counts and warnings. Ticks are finer where the delay needs it.
#[test]
fn beside_captions_that_were_moved() {
    let random = &mut Random(39);
    for round in 0..3_000 {
        let timescale = [25u64, 600, 1_000, 12_800, 24_000, 30_000, 90_000][random.below(7) as usize];
        let mut at = 0;
        let mut segments = Vec::new();
        for _ in 0..random.below(5) {
            let (source, duration) = (at + random.below(3 * timescale), random.below(4 * timescale));
            segments.push(of(source, segments.last().map_or(0, |s: &Segment| s.output + s.duration), duration));
            at = source + duration;
        }
        let delay = random.below(5_000) as i64 - 2_500;
        let finer = (1..=1_000).find(|k| timescale * k * delay.unsigned_abs() % 1_000 == 0).unwrap();
        let scaled: Vec<Segment> = segments.iter().map(|s| of(s.source * finer, s.output * finer, s.duration * finer)).collect();
        let least = if delay < 0 { delay.unsigned_abs() } else { 0 };
        let starts: Vec<u64> = (0..8).map(|_| least + random.below(12_000)).collect();
        let captions: Vec<(u64, u64)> = starts.into_iter().map(|a| (a, a + 40 + random.below(3_000))).collect();
        let moved: Vec<(u64, u64)> = captions.iter().map(|(a, b)| (a.wrapping_add_signed(delay), b.wrapping_add_signed(delay))).collect();
        let here = retime(Kind::Srt, &Map::from_segments(timescale as u32, &segments).delayed(delay).unwrap(), &srt(&captions)).unwrap();
        let there = retime(Kind::Srt, &Map::from_segments((timescale * finer) as u32, &scaled), &srt(&moved)).unwrap();
        let warned = |r: &retimer::Retimed| r.warnings.iter().map(|w| (w.number, w.line)).collect::<Vec<_>>();
        assert_eq!((times(&here.text), here.counts, warned(&here)), (times(&there.text), there.counts, warned(&there)), "round {round}: {timescale} {delay} {segments:?} {captions:?}");
    }
}

/// The command: by one option, for every kind, and refused in words.
#[test]
fn by_the_command() {
    let folder = Folder::new();
    let subs = common::play("srt", "subs.srt");
    assert_eq!(run_play("retime", &["--subs", &subs, "--delay", "0"]).out, run_play("retime", &["--subs", &subs]).out);
    // the caption of line 10 starts at 7.1 s; the first stretch starts at 12,012 ticks, 0.5005 s
    let text = folder.write("one.srt", "1\n00:00:07,100 --> 00:00:09,800\nFather, a horn!\n");
    for (words, starts) in [(&["--delay", "+5.554"][..], "00:00:12,153 --> 00:00:14,854"), (&["--delay", "-5.554"], "00:00:01,045 --> 00:00:03,746"), (&["--delay=-.1"], "00:00:06,499 --> 00:00:09,200")] {
        let got = run_play("retime", &[&["--subs", &text], words].concat());
        assert!(got.text().contains(starts), "{got:?}");
        assert!(got.err.starts_with("every caption was delayed by "), "{got:?}");
    }
    let ass = folder.write("one.ass", "[Events]\nFormat: Start, End, Text\nDialogue: 0:00:07.10,0:00:09.80,x\n");
    assert!(run_play("retime", &["--subs", &ass, "--delay", "+5.554"]).text().contains("0:00:12.15,0:00:14.86"));
    for bad in ["soon", "1.2345", "1:30"] {
        run_play("retime", &["--subs", &text, "--delay", bad]).fails(2, &[&format!("bobbincrag retime: --delay is seconds, to the thousandth, such as +5.554 or -0.5, not {bad}")]);
    }
    let fine = folder.write("fine.bin", retimer::Sheet::in_order(1_000_000_000, (25, 1), vec![40_000_000; 10], [0]).to_bytes().unwrap());
    run(&["retime", "--sheet", &fine, "--subs", &text, "--delay", "-9999999"]).fails(1, &["--delay -9999999.000: the delay is too long: a stretch would end later than 2^53 ticks"]);
    let sheet = folder.write("sheet.bin", common::sheet(100, 10));
    let ask = |text: &str, delay: &str| run_with(&["retime", "--sheet", &sheet, "--subs", "-", "--kind", "srt", "--delay", delay], text.as_bytes());
    let none = "1\n00:00:00,000 --> 00:00:00,000\nx\n";
    ask(none, "1").fails(1, &["--delay +1.000: 1 captions of standard input end at 0 and can't be delayed: take them out, or let them end later"]);
    assert_eq!(ask(none, "-1").status, 0);
    assert!(ask("1\n00:00:00,000 --> 00:00:00,500\nx\n", "1").text().contains("00:00:01,000 --> 00:00:01,500"));
    assert_eq!(run(&["retime", "--sheet", &sheet, "--subs", &text, "--delay"]).status, 2);
}
