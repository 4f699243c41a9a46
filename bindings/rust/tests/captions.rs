//! What the crate makes of the captions that the reader tells, on random texts: fates and new times beside the retimed text, and the places of faults, of whole texts, of texts in pieces, and all of a text.
mod common;

use common::Random;
use retimer::captions::{read, Caption, Times};
use retimer::{faults, retime, Counts, Kind, Map, Session, Stopped};

const SPACES: [&str; 8] = ["", "", "", " ", "\t", "\u{3000}", "\u{a0}", " \u{85}"];
const ENDS: [&str; 4] = ["\n", "\n", "\r\n", "\r\r\n"];

/// A map that keeps parts of the first two seconds.
fn map(random: &mut Random) -> Map {
    let timescale = [1_000, 30_000, 7, 90_000, 1_000_000_000][random.below(5) as usize];
    let (mut numbers, mut output, span) = (Vec::new(), 0, 2 * u64::from(timescale));
    for k in 0..random.below(5) {
        let (source, duration) = (random.below(span), random.below(span / 2));
        numbers.extend([k, k + 1, source, 1, output, duration]);
        output += duration;
    }
    Map::from_numbers(timescale, numbers)
}

/// A time of a kind, mostly good, in the ways in which it can be written.
fn time(random: &mut Random, kind: Kind, bad: u64) -> String {
    let units = random.below(3 * kind.units());
    let text = match (kind, random.below(12)) {
        (Kind::Srt, 0..=3) => kind.time_marked(units, '.'),
        (Kind::Srt, 4) => format!("0:0:{},{}", units / 1000, units % 1000),
        (Kind::Srt, 5) => format!("+0:+0:+{}.+{}", units / 1000, units % 1000),
        (Kind::Ass, 0) => format!("0:0:{}.{}", units / 100, units % 100),
        (Kind::Ass, 1) => format!("+00:+000:+{}.+{}", units / 100, units % 100),
        (Kind::Vtt, 0..=3) => kind.time(units)[3..].to_string(),
        (Kind::Vtt, 4) => format!("0000{}", kind.time(units)),
        _ => kind.time(units),
    };
    if !random.once_in(bad) {
        return format!("{}{text}{}", random.of(&SPACES), random.of(&SPACES));
    }
    let wrong = ["", "0:60:00.00", "00:00:60,000", "10000:00:00.00", "0:00:01", "00:00:01,5.0", "0:0:0.1000", "0:00.100", "x", "00:00:00:00.100", "99999999999999999999:00:00.00", "0:00:00.+", "00:00.1000"];
    random.of(&wrong).to_string()
}

fn ass(random: &mut Random, bad: u64) -> String {
    let heads = ["[Events]", " [Events]\u{3000}", "[events]", "[Events", "[]", "[", "[V4+ Styles]", "[Events]x"];
    let formats = ["Format: Start, End, Text", "Format:Layer,Start , End,Style,Text", "Format: End,Text,Start", "Format: Start, Text", "Format:", "Format: Start,Start,End", "Format: End, Start", " Format: Start, End"];
    let mut text = String::new();
    for _ in 0..random.below(12) {
        let (a, b) = (time(random, Kind::Ass, bad), time(random, Kind::Ass, bad));
        text += &match random.below(9) {
            0 => random.of(&heads).to_string(),
            1 => random.of(&formats).to_string(),
            2 => "[Events]\nFormat: Start, End, Text".to_string(),
            3 => format!("Comment:{a},{b},a, b"),
            4 => format!("Dialogue: 0,{a},{b},Default,{{\\fad(1,2)}}x\\Ny, z"),
            5 => format!("Dialogue:{a},{b}"),
            6 => random.of(&["", " ", "Style: x", " Dialogue: 1,2,3", "; comment", "\u{FEFF}Dialogue: 1,2,3", "dialogue: 1,2,3"]).to_string(),
            _ => format!("Dialogue: {a},{b},word, word"),
        };
        text += random.of(&ENDS);
    }
    text
}

fn blocks(random: &mut Random, kind: Kind, bad: u64) -> String {
    let blanks = ["\n", "\n\n", "\r\n", " \n", "\t\r\n", "\u{3000}\n", "\r\r\n", ""];
    let tails = ["", "", "", " align:start", "  X1:1 X2:2", "\tline:0", "6", "\u{e9}", "\u{a0}x", " --> 1"];
    let mut text = String::new();
    for k in 0..random.below(8) {
        if random.once_in(2) {
            text += &format!("{k}{}", random.of(&ENDS));
        }
        if !random.once_in(6) {
            let (a, b) = (time(random, kind, bad), time(random, kind, bad));
            text += &format!("{a}{}-->{}{b}{}{}", random.of(&SPACES), random.of(&SPACES), random.of(&tails), random.of(&ENDS));
        }
        for _ in 0..random.below(3) {
            text += &format!("{}{}", random.of(&["<i>word</i>", "a --> b", "<00:00:01.000>x", "\u{4eca}\u{591c}", "I <3 you"]), random.of(&ENDS));
        }
        text += random.of(&blanks);
    }
    text
}

fn text(random: &mut Random, kind: Kind, bad: u64) -> Vec<u8> {
    let mut text = match kind {
        Kind::Ass => ass(random, bad),
        Kind::Srt => blocks(random, kind, bad),
        Kind::Vtt => random.of(&["WEBVTT\n\n", "WEBVTT\n", "WEBVTT - x\r\n\r\n", "WEBVTT\ta --> b\n"]).to_string() + &blocks(random, kind, bad),
    };
    if random.once_in(5) {
        text.insert(0, '\u{FEFF}');
    }
    if random.once_in(4) {
        text.pop();
    }
    let mut bytes = text.into_bytes();
    if bad < 1_000 && random.once_in(20) && !bytes.is_empty() {
        let k = random.below(bytes.len() as u64) as usize;
        bytes[k] = 0xFF;
    }
    bytes
}

/// The first so many lines.
fn first(text: &[u8], lines: u64) -> &[u8] {
    let length = text.split_inclusive(|b| *b == b'\n').take(lines as usize).map(<[u8]>::len).sum();
    &text[..length]
}

/// How many captions have which fate, and the new times of those that are kept.
fn fares(map: &Map, kind: Kind, captions: &[Caption<'_>]) -> (Counts, Vec<Times>) {
    let (mut counts, mut new) = (Counts::default(), Vec::new());
    for caption in captions {
        let (Times::Read { start, stop }, Some(fate)) = (caption.times, caption.fate(map).unwrap()) else {
            counts.passed += 1;
            new.push(caption.times);
            continue;
        };
        let moved = fate.moved(map, kind, start, stop).unwrap();
        *match () {
            _ if fate.is_dropped() => &mut counts.dropped,
            _ if fate.is_shifted() => &mut counts.shifted,
            _ => &mut counts.clipped,
        } += 1;
        assert_eq!(moved.is_none(), fate.is_dropped());
        new.extend(moved.map(|[start, stop]| Times::Read { start, stop }));
    }
    (counts, new)
}

/// A session that is fed the text in pieces stops at the place that the whole text has.
fn in_pieces(random: &mut Random, kind: Kind, map: &Map, text: &[u8]) -> Option<Stopped> {
    let (mut session, mut rest) = (Session::open(kind, map).unwrap(), text);
    while !rest.is_empty() {
        let (piece, behind) = rest.split_at((1 + random.below(40) as usize).min(rest.len()));
        if let Err(stopped) = session.feed(piece) {
            return Some(stopped);
        }
        rest = behind;
    }
    session.finish().err()
}

/// Good texts: fates add up to the counts, and new times are those that are read in the retimed text. Bad ones: the lines before the fault's are sound, those up to it are not; a session tells the same place.
fn held(seed: u64, count: usize, bad: u64) {
    let mut random = Random(seed);
    let (mut sound, mut faulty, mut told) = (0, 0, 0);
    for k in 0..count {
        let kind = Kind::ALL[k % 3];
        let (map, text) = (map(&mut random), text(&mut random, kind, bad));
        let shown = || format!("case {k}, {kind:?}, {map:?}, {:?}", String::from_utf8_lossy(&text));
        let found = faults::in_captions(kind, &text, &mut |_| {}).faults;
        let reading = read(kind, &text).unwrap();
        let stopped = in_pieces(&mut random, kind, &map, &text);
        match retime(kind, &map, &text) {
            Ok(retimed) => {
                assert!(found.is_empty() && reading.fault.is_none() && stopped.is_none(), "{found:?} {}", shown());
                let (counts, new) = fares(&map, kind, &reading.captions);
                assert_eq!(counts, retimed.counts, "{}", shown());
                let again: Vec<Times> = read(kind, &retimed.text).unwrap().captions.iter().map(|c| c.times).collect();
                assert_eq!(new, again, "{}", shown());
                // every warning is about a caption that was read
                assert!(retimed.warnings.iter().all(|w| reading.captions.iter().any(|c| c.line == w.line)), "{}", shown());
                sound += 1;
                told += reading.captions.len();
            }
            Err(whole) => {
                let place = whole.place.clone().unwrap_or_else(|| panic!("{whole} {}", shown()));
                assert_eq!((reading.fault, reading.place()), (Some((whole.refused, place.line)), Some(place.clone())), "{}", shown());
                let part = first(&text, place.line - 1);
                assert!(Session::open(kind, &map).unwrap().feed(part).is_ok(), "{whole} {}", shown());
                let upto = retime(kind, &map, first(&text, place.line)).map_err(|s| s.refused);
                assert_eq!(upto.err(), Some(whole.refused), "{whole} {}", shown());
                assert_eq!((found[0].refused, &found[0].place), (whole.refused, &place.to_string()), "{}", shown());
                let stopped = stopped.unwrap_or_else(|| panic!("{}", shown()));
                assert_eq!((stopped.refused, stopped.place.map(|p| p.line)), (whole.refused, Some(place.line)), "{}", shown());
                faulty += 1;
            }
        }
    }
    println!("{sound} sound texts with {told} captions, {faulty} faulty ones");
    assert!(sound > count / 10 && told > count / 4 && (bad > 1_000 || faulty > count / 10));
}

#[test]
fn good_times() {
    held(1, 30_000, u64::MAX);
}

#[test]
fn bad_times() {
    held(2, 30_000, 12);
}

/// Any bytes: nothing panics, there is a fault where the retimer refuses, and once all that is told is set right there is none.
#[test]
fn any_bytes() {
    let parts: [&[u8]; 24] = [
        b"\n",
        b"\n",
        b"\n\n",
        b"\r\n",
        b"\r",
        b"-->",
        b" ",
        b":",
        b"0",
        b"00:00:01,000",
        b"00:01.000",
        b"0:00:01.00",
        b",",
        b".",
        b"\xff",
        b"\xe3\x80\x80",
        b"\xe3\x80",
        b"\xef\xbb\xbf",
        b"[Events]\n",
        b"Format:Start,End\n",
        b"Dialogue:",
        b"WEBVTT",
        b"<",
        b"{",
    ];
    let mut random = Random(4);
    let (mut sound, map) = (0, map(&mut Random(5)));
    for k in 0..60_000 {
        let kind = Kind::ALL[k % 3];
        let mut text = if k % 6 < 3 { b"WEBVTT\n\n".to_vec() } else { Vec::new() };
        (0..random.below(30)).for_each(|_| text.extend_from_slice(random.of(&parts)));
        let found = faults::in_captions(kind, &text, &mut |_| {});
        assert!(!found.more && found.faults.len() <= 60, "{kind:?} {text:?}");
        match retime(kind, &map, &text) {
            Ok(_) => {
                assert!(found.faults.is_empty(), "{kind:?} {text:?}");
                sound += 1;
            }
            Err(stopped) => assert_eq!((found.faults[0].refused, found.faults[0].place.as_str()), (stopped.refused, stopped.place.unwrap().to_string().as_str()), "{kind:?} {text:?}"),
        }
    }
    assert!(sound > 15_000, "{sound}");
}

#[test]
fn words_and_lines() {
    let ass = "\u{FEFF}[Events]\r\nFormat: Layer, Start, End, Text\r\nDialogue: 0,0:00:01.00,0:00:02.50,{\\i1}Good\\Nevening{\\i0}, all\r\nDialogue: 0,0:00:01.00\r\n";
    let told = read(Kind::Ass, ass.as_bytes()).unwrap().captions;
    assert_eq!((told[0].line, told[0].times, told[0].words().as_str()), (3, Times::Read { start: 100, stop: 250 }, "Good evening, all"));
    assert_eq!((told[1].line, told[1].times, told[1].words().as_str()), (4, Times::Passed { warning: 2 }, "Dialogue: 0,0:00:01.00"));
    let srt = "1\n00:00:01.000 --> 00:00:02,500  X1:1\n<b>Good</b>\n  evening \u{1b}[0m\n\n2\nnothing\n";
    let told = read(Kind::Srt, srt.as_bytes()).unwrap().captions;
    assert_eq!(told.len(), 1);
    assert_eq!((told[0].line, told[0].words().as_str()), (2, "Good evening [0m"));
    let vtt = "WEBVTT\n\nNOTE\nx\n\nid\n00:01.000 --> 00:02.500 align:left\n<v Girl>I <3 you</v>\n";
    let told = read(Kind::Vtt, vtt.as_bytes()).unwrap().captions;
    assert_eq!((told[0].line, told[0].times, told[0].words().as_str()), (7, Times::Read { start: 1_000, stop: 2_500 }, "I <3 you"));
}

/// Every fault of a text, with the line that it has there.
#[test]
fn all_faults() {
    let told = |kind, text: &[u8]| -> Vec<String> { faults::in_captions(kind, text, &mut |_| {}).faults.iter().map(|f| format!("{}: {}", f.refused.number(), f.place)).collect() };
    let x = "x".repeat(4_200);
    let srt = format!("1\n00:00:01,000 --> never\nA\n\n2\n00:00:02,000 --> 00:00:03,000\n{x}\nfine\n\n{}\n\n4\n00:00:60,000 --> 00:00:61,000\nD", "y\n".repeat(2_500));
    assert_eq!(
        told(Kind::Srt, srt.as_bytes()),
        ["22: line 2: \"00:00:01,000 --> never A\"".to_string(), format!("19: line 7: \"{}..\"", "x".repeat(60)), "21: line 10: \"y\"".to_string(), format!("22: line {}: \"00:00:60,000 --> 00:00:61,000 D\"", 10 + 2_500 + 3),]
    );
    let two = b"1\n00:00:01,000 --> x\nA\xff\nB\nC\xfe\n\n2\n00:00:02,000 --> y\nD\n";
    assert_eq!(told(Kind::Srt, two), ["20: line 3: \"A\u{FFFD}\"", "20: line 5: \"C\u{FFFD}\"", "22: line 2: \"00:00:01,000 --> x A\u{FFFD} B C\u{FFFD}\"", "22: line 8: \"00:00:02,000 --> y D\""]);
    let ass = format!("[Events]\nFormat: Start, End, Text\nDialogue: 1,0:00:02.00,A\n{x}\nDialogue: 0:00:01.00,0:00:02.00,B\nDialogue: 0:00:01.00,2,C");
    assert_eq!(told(Kind::Ass, ass.as_bytes()), ["22: line 3: \"Dialogue: 1,0:00:02.00,A\"".to_string(), format!("19: line 4: \"{}..\"", "x".repeat(60)), "22: line 6: \"Dialogue: 0:00:01.00,2,C\"".to_string()]);
    let vtt = "\u{FEFF}WEBVTT!\n\n0:01.000 --> 00:02.000\nA\n";
    assert_eq!(told(Kind::Vtt, vtt.as_bytes()), ["24: line 1: \"WEBVTT!\"", "22: line 3: \"0:01.000 --> 00:02.000 A\""]);
    assert_eq!(told(Kind::Vtt, b""), ["24: line 1: \"\""]);
    assert_eq!(told(Kind::Srt, b"\xff\xfe1\0\n\0"), ["20: line 1: \"\u{FFFD}\u{FFFD}1\" (this is UTF-16: save it as UTF-8)"]);
    assert!(told(Kind::Srt, b"").is_empty() && told(Kind::Ass, b"").is_empty());
    // in WebVTT a line of a space is a line of the block
    let long = format!("WEBVTT\n\n{}", "y\n \n".repeat(1_500));
    assert_eq!(told(Kind::Vtt, long.as_bytes()), ["21: line 3: \"y\""]);
}

/// At most 100 faults are looked for, and that the search ended is told.
#[test]
fn most_faults() {
    for (count, told, more) in [(99, 99, false), (100, 100, false), (101, 100, true), (500, 100, true)] {
        let text = "1 --> 2\n\n".repeat(count);
        let found = faults::in_captions(Kind::Srt, text.as_bytes(), &mut |_| {});
        assert_eq!((found.faults.len(), found.more), (told, more), "{count}");
    }
}
