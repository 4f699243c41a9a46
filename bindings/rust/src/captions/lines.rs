//! The lines of a text. A line ends in LF or CR LF; a lone CR is text.
use crate::{Encoding, Kind};
use std::ops::Range;

pub(crate) const BOM: &[u8] = "\u{FEFF}".as_bytes();

/// The bytes of a line without its terminator, and where the next line begins. A text without this line has none at its end.
pub(crate) fn span(text: &[u8], line: u64) -> (Range<usize>, usize) {
    let mut from = if text.starts_with(BOM) { BOM.len() } else { 0 };
    for _ in 1..line {
        from += length(&text[from..]);
    }
    let next = from + length(&text[from..]);
    (from..from + text_of(&text[from..next]).len(), next)
}

/// The length of the first line, with its terminator.
fn length(text: &[u8]) -> usize {
    text.iter().position(|b| *b == b'\n').map_or(text.len(), |k| k + 1)
}

/// From the start of a line to the next blank one, or to the end: an empty one in WebVTT, else one of White_Space alone.
pub(crate) fn to_blank(kind: Kind, text: &[u8], from: usize) -> Range<usize> {
    let mut end = from;
    while end < text.len() {
        let next = end + length(&text[end..]);
        let line = text_of(&text[end..next]);
        if (if kind == Kind::Vtt { line } else { trimmed(line) }).is_empty() {
            break;
        }
        end = next;
    }
    from..end
}

/// How many lines end in these bytes.
pub(crate) fn ends(text: &[u8]) -> u64 {
    text.iter().filter(|b| **b == b'\n').count() as u64
}

/// A line without its terminator.
pub(crate) fn text_of(line: &[u8]) -> &[u8] {
    match line.strip_suffix(b"\n") {
        Some(text) => text.strip_suffix(b"\r").unwrap_or(text),
        None => line,
    }
}

/// Without White_Space at both ends.
pub(crate) fn trimmed(text: &[u8]) -> &[u8] {
    match std::str::from_utf8(text) {
        Ok(text) => text.trim().as_bytes(),
        Err(_) => text.trim_ascii(),
    }
}

/// A word more about a text that is not UTF-8, where it is UTF-16 or UTF-32.
pub(crate) fn hint(number: u32, text: &[u8]) -> &'static str {
    match (number == 20).then(|| Encoding::of(text)).flatten() {
        Some(Encoding::Utf16 | Encoding::Utf16Be) => " (this is UTF-16: save it as UTF-8)",
        Some(Encoding::Utf32) => " (this is UTF-32: save it as UTF-8)",
        _ => "",
    }
}
