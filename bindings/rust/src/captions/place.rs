//! A place in a text as it is shown: the line that the reader told, and what stands there.
use super::lines::{span, to_blank};
use super::words::{joined, plain};
use super::{shown, Reading};
use crate::Kind;

/// A place in a text.
#[derive(Clone, Debug, PartialEq, Eq)]
pub struct Place {
    /// The line, counted from 1.
    pub line: u64,
    /// What stands there; of times that can't be read in SRT and WebVTT the words below them too.
    pub words: String,
}

impl std::fmt::Display for Place {
    fn fmt(&self, f: &mut std::fmt::Formatter<'_>) -> std::fmt::Result {
        write!(f, "line {}: \"{}\"", self.line, self.words)
    }
}

impl Reading<'_> {
    /// Where the text is at fault; nothing of a sound one.
    pub fn place(&self) -> Option<Place> {
        self.fault.map(|(refused, line)| at(refused.0, self.kind, self.text, line))
    }
}

/// A line of a text that has a fault of this number.
pub(crate) fn at(number: u32, kind: Kind, text: &[u8], line: u64) -> Place {
    let (here, next) = span(text, line);
    let told = &text[here];
    let words = match (number, kind) {
        (20, _) => bad_bytes(told),
        (22, Kind::Ass) => plain(kind, told),
        (22, Kind::Srt | Kind::Vtt) => {
            let below = plain(kind, &text[to_blank(kind, text, next)]);
            return Place { line, words: format!("{} {}", shown(&lossy(told)), shown(&below)).trim_end().to_string() };
        }
        _ => lossy(told),
    };
    Place { line, words: shown(&words) }
}

fn lossy(bytes: &[u8]) -> String {
    joined(&String::from_utf8_lossy(bytes))
}

/// The line from shortly before the first bytes that are not UTF-8.
fn bad_bytes(line: &[u8]) -> String {
    let good = line.utf8_chunks().next().map_or("", |chunk| chunk.valid());
    let from = good.char_indices().rev().nth(19).map_or(0, |(k, _)| k);
    lossy(&line[from..])
}

#[cfg(test)]
mod tests {
    use super::super::read;
    use super::*;

    fn place(number: u32, kind: Kind, text: &[u8]) -> (u64, String) {
        let reading = read(kind, text).unwrap();
        assert_eq!(reading.fault.unwrap().0 .0, number);
        let Place { line, words } = reading.place().unwrap();
        (line, words)
    }

    #[test]
    fn lines_at_fault() {
        let long = [b"\xef\xbb\xbfone\n".as_slice(), &[b'x'; 4_096], b"\n"].concat();
        assert_eq!(place(19, Kind::Srt, &long), (2, format!("{}..", "x".repeat(60))));
        assert_eq!(place(20, Kind::Ass, b"a\nCaf\xe9 noir\n"), (2, "Caf\u{FFFD} noir".into()));
        assert_eq!(place(24, Kind::Vtt, b"WEBVTT2\n"), (1, "WEBVTT2".into()));
        assert_eq!(place(24, Kind::Vtt, b""), (1, String::new()));
        assert_eq!(read(Kind::Vtt, b"WEBVTT").unwrap().place(), None);
    }

    #[test]
    fn blocks_at_fault() {
        let long = [b"WEBVTT\n\nfirst\n\nsecond\n".as_slice(), &[b'x'; 4_090], b"\n\n"].concat();
        assert_eq!(place(21, Kind::Vtt, &long), (5, "second".into()));
        assert_eq!(place(22, Kind::Srt, b"1\n00:00:01,000 --> soon\n<b>Wait</b>\n\nno\n"), (2, "00:00:01,000 --> soon Wait".into()));
        let ass = b"[Events]\nFormat: Start, End, Text\nDialogue: 0:00:01.00,0:60:00.00,{\\i1}Wait,\\Nhere\n";
        assert_eq!(place(22, Kind::Ass, ass), (3, "Dialogue: 0:00:01.00,0:60:00.00,Wait, here".into()));
    }
}
