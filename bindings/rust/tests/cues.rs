//! The captions of a text as `retimer_cues` tells them, beside answers of tools/models/cues.py (cues.txt, by tools/data/cues): document 01's worked captions, the example play, random texts.
mod common;

use common::{file, play, read};
use retimer::captions::{self, Times};
use retimer::{raw, Kind, Refused, Warning};

fn bytes(hex: &str) -> Vec<u8> {
    (0..hex.len() / 2).map(|k| u8::from_str_radix(&hex[2 * k..2 * k + 2], 16).unwrap()).collect()
}

/// The cases: kind, places lent, text, and the lines of the answer.
fn stored() -> Vec<(u32, usize, Vec<u8>, Vec<String>)> {
    let mut all = Vec::new();
    for line in String::from_utf8(read(&file("bindings/rust/tests/cues.txt"))).unwrap().lines() {
        let words: Vec<&str> = line.split(' ').collect();
        match (&words[..], all.last_mut()) {
            ([kind, places, text], _) if words[0].len() == 1 => all.push((kind.parse().unwrap(), places.parse().unwrap(), bytes(text), Vec::new())),
            (_, Some((_, _, _, answer))) => answer.push(line.to_string()),
            _ => panic!("{line}"),
        }
    }
    all
}

/// Number, rows and what is told; what is not to be written stays.
#[test]
fn as_stored() {
    let (mut captions, mut faulty, mut refused) = (0, 0, 0);
    for (kind, places, text, answer) in stored() {
        let lent = if places == 0 { 6 * (text.len() / 8 + 1) } else { places };
        let (mut rows, mut told) = (vec![9; lent + 3], [9; 3]);
        let number = raw::cues(kind, &text, &mut rows[..lent], &mut told[..2]);
        let shown = || format!("{kind} {places} {:?}", String::from_utf8_lossy(&text));
        if number == 16 {
            assert!(answer == ["refused 16"] && told == [9; 3] && rows.iter().all(|n| *n == 9), "{}", shown());
            refused += 1;
            continue;
        }
        let written = 6 * told[0] as usize;
        let mut lines = vec![format!("cues {} {}", told[0], told[1])];
        lines.extend(rows[..written].chunks(6).map(|row| row.iter().map(u64::to_string).collect::<Vec<_>>().join(" ")));
        lines.extend((number != 0).then(|| format!("fault {number}")));
        assert_eq!(lines, answer, "{}", shown());
        assert!(rows[written..].iter().all(|n| *n == 9) && told[2] == 9, "{}", shown());
        captions += told[0];
        faulty += usize::from(number != 0);
    }
    assert!(captions > 150 && faulty > 40 && refused > 10, "{captions} {faulty} {refused}");
}

/// `read` tells the same, its words are those bytes of the text, and it lends enough places by itself.
#[test]
fn as_read() {
    for (number, places, text, answer) in stored() {
        let Some(kind) = Kind::ALL.into_iter().find(|k| k.number() == number).filter(|_| places == 0) else { continue };
        let reading = captions::read(kind, &text).unwrap();
        let row = |c: &captions::Caption<'_>| {
            assert_eq!(c.said, &text[c.at..c.at + c.said.len()]);
            let (warning, start, stop) = match c.times {
                Times::Read { start, stop } => (0, start, stop),
                Times::Passed { warning } => (warning, 0, 0),
            };
            assert_eq!(c.passes(), (warning > 0).then_some(Warning { number: warning, line: c.line }));
            format!("{} {warning} {start} {stop} {} {}", c.line, c.at, c.said.len())
        };
        let mut lines = vec![format!("cues {} {}", reading.captions.len(), reading.fault.map_or(0, |f| f.1))];
        lines.extend(reading.captions.iter().map(row));
        lines.extend(reading.fault.map(|(refused, _)| format!("fault {}", refused.0)));
        assert_eq!(lines, answer, "{kind:?} {:?}", String::from_utf8_lossy(&text));
    }
}

/// Refused: a kind that there is not, too few told places, one place too few; and exactly enough.
#[test]
fn lent_places() {
    let text = b"0:0:1,0-->0:0:2,0\n\n0:0:3,0-->0:0:4,0\n";
    for (kind, rows, told, number) in [(3, 12, 2, 16), (u32::MAX, 12, 2, 16), (1, 12, 1, 16), (1, 12, 0, 16), (1, 11, 2, 16), (1, 0, 2, 16), (1, 12, 2, 0), (1, 12, 3, 0), (1, 13, 2, 0)] {
        let (mut lent, mut said) = (vec![9; rows], vec![9; told]);
        assert_eq!(raw::cues(kind, text, &mut lent, &mut said), number, "{kind} {rows} {told}");
        if number == 16 {
            assert!(lent.iter().chain(&said).all(|n| *n == 9));
        } else {
            assert_eq!((&lent[..12], &said[..2]), (&[1, 0, 1000, 2000, 18, 0, 3, 0, 3000, 4000, 37, 0][..], &[2, 0][..]));
            assert!(lent[12..].iter().chain(&said[2..]).all(|n| *n == 9));
        }
    }
    assert_eq!(raw::cues(0, b"", &mut [], &mut [9; 2]), 0);
}

/// Many short captions need more places than most texts do; a text above 2^30 bytes is refused.
#[test]
fn sizes() {
    let text = "[Events]\n".to_string() + &"Comment:\n".repeat(50_000);
    let reading = captions::read(Kind::Ass, text.as_bytes()).unwrap();
    assert_eq!((reading.captions.len(), reading.fault, reading.captions[49_999].line), (50_000, None, 50_001));
    assert!(reading.captions.iter().all(|c| c.times == Times::Passed { warning: 1 } && c.said == b"Comment:"));
    assert_eq!(captions::read(Kind::Srt, &vec![0; (1 << 30) + 1]).err(), Some(Refused(16)));
}

/// Words of the example play, without tags, and where they stand.
#[test]
fn the_play() {
    let words = |kind: Kind, line: u64| {
        let text = read(&play(kind.name(), &format!("subs.{}", kind.name())));
        let reading = captions::read(kind, &text).unwrap();
        let found = reading.captions.iter().find(|c| c.line == line).map(|c| (c.times, c.words()));
        (reading.captions.len(), reading.fault, found)
    };
    let read = |start, stop, said: &str| Some((Times::Read { start, stop }, said.to_string()));
    assert_eq!(words(Kind::Ass, 27), (25, None, read(6_450, 7_180, "All night I heard someone sing.")));
    assert_eq!(words(Kind::Srt, 34), (22, None, read(33_000, 38_000, "Interval: the bar is open.")));
    assert_eq!(words(Kind::Vtt, 22), (22, None, read(10_000, 14_500, "Row, row, the water is low")));
}
