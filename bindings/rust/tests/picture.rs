use retimer::picture::{svg, Cut, Drawn, Fate, New, Stretch};
use std::collections::BTreeSet;

/// Walks through an XML text: tags closed in order, attributes quoted, no bare `<` or `&`, no control characters. It answers how many elements there are.
fn well_formed(xml: &str) -> usize {
    assert!(xml.chars().all(|c| c == '\n' || !c.is_control()), "a control character");
    let (mut open, mut elements, mut rest) = (Vec::new(), 0, xml);
    while let Some(start) = rest.find('<') {
        plain(&rest[..start]);
        let end = start + rest[start..].find('>').expect("a tag ends");
        let tag = &rest[start + 1..end];
        rest = &rest[end + 1..];
        if let Some(name) = tag.strip_prefix('/') {
            assert_eq!(open.pop(), Some(name));
            continue;
        }
        elements += 1;
        let alone = tag.ends_with('/');
        let name = attributes(tag.trim_end_matches('/'));
        if !alone {
            open.push(name);
        }
    }
    assert!(open.is_empty() && rest.trim().is_empty(), "{open:?} still open");
    elements
}

/// Text without tags: each `&` begins one of five names.
fn plain(text: &str) {
    for (k, _) in text.match_indices('&') {
        assert!(["&lt;", "&gt;", "&amp;", "&quot;", "&apos;"].iter().any(|e| text[k..].starts_with(e)), "{}", &text[k..]);
    }
}

/// The name of a tag, its attributes read.
fn attributes(tag: &str) -> &str {
    let (name, mut rest) = tag.split_once(' ').unwrap_or((tag, ""));
    assert!(name.chars().all(|c| c.is_ascii_alphanumeric()), "{name}");
    while !rest.trim().is_empty() {
        let (key, value) = rest.split_once("=\"").expect("an attribute has a value");
        assert!(key.trim().chars().all(|c| c.is_ascii_alphabetic() || c == '-'), "{key}");
        let (value, more) = value.split_once('"').expect("a value ends");
        plain(value);
        assert!(!value.contains("NaN") && !value.contains("inf"), "{tag}");
        rest = more;
    }
    name
}

/// A caption through a map, by the rule of document 01.
fn through(line: u64, start: u64, end: u64, map: &[Stretch], words: &str) -> Drawn {
    let hit = map.iter().enumerate().find(|(_, s)| s.duration > 0 && start < s.source + s.duration && end > s.source);
    let (fate, new) = match hit {
        None => (Fate::Dropped, None),
        Some((stretch, s)) => {
            let (a, b) = (start.max(s.source), end.min(s.source + s.duration));
            let fate = if (a, b) == (start, end) { Fate::Shifted } else { Fate::Clipped };
            (fate, Some(New { stretch, start: a - s.source + s.output, end: b - s.source + s.output, torn: (a > start, b < end) }))
        }
    };
    Drawn { line, start, end, fate, new, warnings: vec![], words: words.to_string() }
}

fn stretch(source: u64, output: u64, duration: u64) -> Stretch {
    Stretch { source, output, duration }
}

fn draw(timescale: u32, recording: u64, segments: &[Stretch], captions: &[Drawn]) -> String {
    let cut = Cut { title: "A play", timescale, recording: Some(recording), segments, captions };
    let text = svg(&cut);
    well_formed(&text);
    assert_eq!(text, svg(&cut));
    text
}

/// How many dropped captions have a bar of their own, in one row or more, and how many stand in blocks.
fn dropped(text: &str) -> (usize, usize) {
    let titles: BTreeSet<&str> = text.split("<g class=\"d\"><title>").skip(1).map(|t| t.split('<').next().unwrap()).collect();
    let counted = |t: &&str| t.split_once(" more captions").and_then(|(n, _)| n.parse::<usize>().ok());
    let alone = titles.iter().filter(|t| t.starts_with("line ")).count();
    (alone, titles.iter().filter_map(counted).sum())
}

#[test]
fn the_sides_of_a_small_play() {
    let map = [stretch(0, 0, 3003), stretch(6006, 3003, 4004)];
    let times = [(150, 750), (3600, 6000), (6300, 7500), (6000, 6300)];
    let all: Vec<Drawn> = times.iter().zip(1..).map(|(&(a, b), n)| through(n, a, b, &map, "words")).collect();
    let text = draw(300, 10010, &map, &all);
    assert!(text.contains("Of 4 captions </tspan><a href=\"#vanished\"><tspan class=\"bd\">1 is dropped</tspan></a>, <a href=\"#others\">2 shifted, 1 clipped, 0 passed unchanged; 0 are warned of.</a>"), "{text}");
    assert!(text.contains("<title>line 2: 0:00:12.00 – 0:00:20.00, dropped: words</title>"));
    assert!(text.contains("<title>line 3: 0:00:21.00 – 0:00:25.00, shifted to 0:00:10.99 – 0:00:14.99 of the cut: words</title>"));
    assert_eq!(dropped(&text), (1, 0));
    assert!(text.contains("What vanished: 1 caption dropped"));
}

/// The places from 116 to 1076 are the 1000 ticks of the recording; the second stretch stands against the first.
#[test]
fn bars_stand_at_their_times() {
    let map = [stretch(0, 0, 300), stretch(500, 300, 500)];
    let times = [(100, 225), (600, 725), (350, 475), (250, 400)];
    let all: Vec<Drawn> = times.iter().zip(1..).map(|(&(a, b), n)| through(n, a, b, &map, "")).collect();
    let text = draw(100, 1000, &map, &all);
    let bars = |line: u64| {
        let group = text.split(&format!("<title>line {line}:")).nth(1).unwrap().split("</g>").next().unwrap();
        let place = |path: &str| (path.split(' ').next().unwrap().to_string(), path.contains("h120v"));
        group.split("d=\"M").skip(1).map(place).collect::<Vec<_>>()
    };
    let at = |x: &str, whole: bool| (x.to_string(), whole);
    assert_eq!(bars(1), [at("212", true), at("212", true)]);
    assert_eq!(bars(2), [at("692", true), at("500", true)]);
    assert_eq!(bars(3), [at("452", true), at("455", false)]);
    assert_eq!(bars(4), [at("356", false), at("356", false), at("356", false)]);
}

#[test]
fn words_are_escaped() {
    let words = "<b>\"&\u{0}\u{7}\r\n\t'\u{85}\u{fffe}\u{ffff}]]>  \u{1f600}";
    let all = [through(1, 10, 90, &[], words)];
    let cut = Cut { title: "a < b & \"c\" \u{1b}[0m", timescale: 1, recording: Some(100), segments: &[], captions: &all };
    let text = svg(&cut);
    well_formed(&text);
    assert!(text.contains("dropped: &lt;b&gt;&quot;&amp; ' ]]&gt; \u{1f600}</title>"), "{text}");
    assert!(text.contains("a &lt; b &amp; &quot;c&quot; [0m"));
}

#[test]
fn nothing_kept_and_no_captions() {
    let all = [through(7, 10, 90, &[], "gone")];
    assert_eq!(dropped(&draw(10, 100, &[], &all)), (1, 0));
    assert!(draw(10, 100, &[stretch(0, 0, 100)], &[]).contains("There are no captions"));
    assert!(draw(10, 100, &[stretch(0, 0, 100)], &[through(1, 5, 9, &[stretch(0, 0, 100)], "")]).contains("Nothing vanished"));
    draw(10, 0, &[], &[]);
    draw(0, 5, &[stretch(3, 0, 0)], &[]);
}

#[test]
fn reversed_and_empty_captions() {
    let map = [stretch(0, 0, 3003), stretch(6006, 3003, 4004)];
    let all: Vec<Drawn> = [(7, 5), (5, 5), (0, 0), (5000, 4000), (9000, 100)].iter().zip(1..).map(|(&(a, b), n)| through(n, a, b, &map, "turned")).collect();
    let text = draw(300, 10010, &map, &all);
    assert_eq!(dropped(&text), (3, 0));
    assert!(text.contains("ends before it starts"));
}

#[test]
fn stretches_out_of_order_or_overlapping() {
    let turned = [stretch(5000, 0, 2000), stretch(0, 2000, 2000), stretch(2500, 4000, 0), stretch(3000, 4000, 1500)];
    let crossing = [stretch(0, 0, 8000), stretch(1000, 8000, 8000), stretch(2000, 16000, 8000)];
    for map in [&turned[..], &crossing[..]] {
        let all: Vec<Drawn> = (0..50).map(|k| through(k + 1, 200 * k, 200 * k + 150, map, "some words")).collect();
        let text = draw(100, 10_000, map, &all);
        let lost = all.iter().filter(|c| c.fate == Fate::Dropped).count();
        assert_eq!(dropped(&text).0, lost);
        let kept = text.matches("of the cut: some words").count();
        assert!(kept >= 50 - lost, "{kept} {lost}");
    }
}

#[test]
fn one_frame_and_the_longest_recordings() {
    let frame = [stretch(0, 0, 1001)];
    draw(24000, 1001, &frame, &[through(1, 0, 1001, &frame, "one frame"), through(2, 0, 0, &frame, "none")]);
    for timescale in [1, 24000, 1_000_000_000, u32::MAX] {
        let most = 1 << 53;
        let map = [stretch(0, 0, most / 4), stretch(most / 2, most / 4, most / 2)];
        let all: Vec<Drawn> = (0..100).map(|k| through(k + 1, most / 100 * k, most / 100 * k + 50_000, &map, "far")).collect();
        let text = draw(timescale, most, &map, &all);
        assert_eq!(dropped(&text).0, all.iter().filter(|c| c.fate == Fate::Dropped).count());
        assert!(text.len() < 1 << 20, "{}", text.len());
        draw(timescale, 3, &[stretch(1, 0, 1)], &[through(1, 0, 2, &[stretch(1, 0, 1)], "")]);
    }
}

#[test]
fn past_all_ends() {
    let map = [stretch(u64::MAX - 5, u64::MAX - 3, u64::MAX), stretch(0, 0, 1000)];
    let mut far = through(1, 2000, 3000, &[], "past");
    (far.start, far.end) = (u64::MAX - 1, u64::MAX);
    let mut long = through(2, 10, 20, &[], "long");
    long.end = 9999 * 3600 * 1000;
    let kept = Drawn { fate: Fate::Shifted, new: Some(New { stretch: 0, start: u64::MAX, end: 0, torn: (false, false) }), ..long.clone() };
    for segments in [&map[..], &map[1..], &[]] {
        let text = draw(1000, 100_000, segments, &[far.clone(), long.clone(), kept.clone(), through(3, 100, 2100, &[], "short")]);
        assert!(text.contains("<title>line 1: ") && text.len() < 1 << 20, "{}", text.len());
    }
}

#[test]
fn passed_and_warned() {
    let passed = Drawn { line: 3, start: 0, end: 0, fate: Fate::Passed, new: None, warnings: vec![2], words: "no times".into() };
    let timed = Drawn { line: 4, start: 100, end: 900, ..passed.clone() };
    let both = Drawn { line: 5, warnings: vec![3, 4, 77], fate: Fate::Clipped, new: Some(New { stretch: 0, start: 0, end: 500, torn: (true, true) }), start: 100, end: 900, words: "both".into() };
    let text = draw(100, 1000, &[stretch(200, 0, 500)], &[passed, timed, both]);
    assert!(!text.contains("<title>line 3") && text.contains("line 3</text>"));
    assert!(text.contains("<g class=\"p\"><title>line 4"));
    assert!(text.contains("warning 3, warning 4, warning 77"));
    assert!(text.contains("see docs/NUMBERS.md"));
}

#[test]
fn a_crowd_at_one_moment() {
    let all: Vec<Drawn> = (0..500).map(|k| through(k + 1, 300 + k % 7, 600 + k, &[], "sign")).collect();
    let (alone, in_blocks) = dropped(&draw(100, 2000, &[], &all));
    assert_eq!(alone + in_blocks, 500);
    assert!(alone >= 6 && in_blocks > 0);
}

#[test]
fn three_hours_and_seven_thousand_captions() {
    let map: Vec<Stretch> = (0..30).map(|k| stretch(360_000 * k + 5000, 300_000 * k, 300_000)).collect();
    let all: Vec<Drawn> = (0..7200).map(|k| through(k + 1, 1500 * k, 1500 * k + 1250, &map, "霧が深い, and words that are long enough to be cut")).collect();
    let text = draw(1000, 10_800_000, &map, &all);
    let lost = all.iter().filter(|c| c.fate == Fate::Dropped).count();
    let (alone, in_blocks) = dropped(&text);
    assert!(lost > 1100 && alone == lost && in_blocks == 0, "{lost} {alone} {in_blocks}");
    assert!(text.contains(&format!(">and {} more</text>", lost - 1000)));
    assert!(text.len() < 4 << 20, "{}", text.len());
}

/// Counts lead to the lists, which have the names that they lead to; where a list is empty, nothing leads there.
#[test]
fn counts_lead_to_the_lists() {
    let map = [stretch(0, 0, 300)];
    let lost = draw(100, 1000, &map, &[through(1, 400, 500, &map, "gone")]);
    assert_eq!((lost.matches("href=\"#vanished\"").count(), lost.matches("id=\"vanished\"").count(), lost.matches("#others").count()), (1, 1, 0));
    let kept = draw(100, 1000, &map, &[through(1, 100, 200, &map, "kept")]);
    assert!(!kept.contains("href="));
    assert!(kept.starts_with("<svg xmlns=\"http://www.w3.org/2000/svg\" role=\"img\" "));
    // a long play has an overview, which leads there too
    let all: Vec<Drawn> = (0..200).map(|k| through(k + 1, 1_000 * k, 1_000 * k + 900, &[stretch(20_000, 0, 60_000)], "x")).collect();
    let long = draw(100, 200_000, &[stretch(20_000, 0, 60_000)], &all);
    assert_eq!(long.matches("<a href=\"#vanished\">").count(), 2);
}

/// The legend has what occurs, and no more.
#[test]
fn the_legend_has_what_occurs() {
    let names = ["kept stretch", "cut away", "shifted: kept whole", "clipped: the dashed part is lost", "dropped: nothing is kept", "passed unchanged", "warned, with its number"];
    let there = |map: &[Stretch], captions: &[Drawn]| {
        let text = draw(100, 1000, map, captions);
        names.map(|name| text.contains(&format!(">{name}</text>")))
    };
    let whole = [stretch(0, 0, 600), stretch(600, 600, 400)];
    assert_eq!(there(&whole, &[through(1, 10, 90, &whole, "")]), [true, false, true, false, false, false, false]);
    let half = [stretch(0, 0, 500)];
    assert_eq!(there(&half, &[through(1, 400, 600, &half, "")]), [true, true, false, true, false, false, false]);
    let warned = Drawn { warnings: vec![2], fate: Fate::Passed, new: None, ..through(1, 400, 600, &half, "") };
    assert_eq!(there(&[], &[through(1, 1, 2, &[], ""), warned]), [false, true, false, false, true, true, true]);
}

/// Rows of a long play in which all is merely shifted are one line, which says how many captions; those with something else stay.
#[test]
fn quiet_rows_are_one_line() {
    let map = [stretch(0, 0, 100_000), stretch(120_000, 100_000, 80_000)];
    let all: Vec<Drawn> = (0..200).map(|k| through(k + 1, 1_000 * k, 1_000 * k + 900, &map, "words")).collect();
    let text = draw(100, 200_000, &map, &all);
    let folded: Vec<usize> = text.split(" of the cut, ").skip(1).filter_map(|t| t.split_once(" captions shifted").and_then(|(n, _)| n.parse().ok())).collect();
    assert_eq!(folded.len(), 2, "{folded:?}");
    let drawn = text.matches(", shifted to ").count();
    assert!(folded.iter().sum::<usize>() + drawn >= 180 && folded.iter().all(|n| *n > 20), "{folded:?} {drawn}");
    assert_eq!(dropped(&text), (20, 0));
    // warned of, a caption keeps its row
    let mut one = all;
    one[50].warnings = vec![3];
    assert!(draw(100, 200_000, &map, &one).contains("<title>line 51: "));
    assert!(!text.contains("<title>line 51: "));
}

/// Edges of stretches are rounded outward, as `why` has them.
#[test]
fn edges_are_rounded_outward() {
    // 0.10001 s to 90.00001 s of the recording, at 0 of the cut
    let map = [stretch(10_001, 0, 8_990_000)];
    let text = draw(100_000, 10_000_000, &map, &[through(1, 1_000_000, 1_200_000, &map, "")]);
    for time in ["0:00:00.10", "0:01:30.01", "0:01:29.90"] {
        assert!(text.contains(&format!(">{time}</text>")), "{time} {text}");
    }
}
