//! A text in which one fault is set right, so that the reader comes to the next one. Every other line keeps its number.
use super::lines::{ends, span, to_blank};
use crate::Kind;

/// Sets the fault of a line right. Bytes that are not UTF-8 become `?`; of a block that is too long, or whose times can't be read, the lines to its end become blank; any other line
/// becomes a short one without a meaning. Told is the byte behind what was set right.
pub(crate) fn mend(kind: Kind, text: &mut Vec<u8>, number: u32, line: u64) -> usize {
    let (here, next) = span(text, line);
    let whole = matches!((kind, number), (Kind::Srt | Kind::Vtt, 21 | 22));
    let old = if whole { here.start..to_blank(kind, text, next).end } else { here };
    let new = match (kind, number) {
        (Kind::Vtt, _) if line == 1 => b"WEBVTT".to_vec(),
        (_, 20) => utf8_of(&text[old.clone()]),
        _ if whole => vec![b'\n'; ends(&text[old.clone()]) as usize],
        (Kind::Ass, _) => Vec::new(),
        (Kind::Srt | Kind::Vtt, _) => b"-".to_vec(),
    };
    let behind = old.start + new.len();
    text.splice(old, new);
    behind
}

/// The bytes with `?` in the place of each that is not UTF-8.
fn utf8_of(bytes: &[u8]) -> Vec<u8> {
    let mut all = Vec::with_capacity(bytes.len());
    for chunk in bytes.utf8_chunks() {
        all.extend_from_slice(chunk.valid().as_bytes());
        all.resize(all.len() + chunk.invalid().len(), b'?');
    }
    all
}
