//! What is to be said of captions that can be retimed, but perhaps not as they are meant.
use retimer::captions::{self, shown, Caption};
use retimer::Kind;

/// That a text has no caption, and which other kind finds some in it.
pub fn none_found(kind: Kind, text: &[u8], read: &[Caption<'_>]) -> Option<String> {
    if !read.is_empty() {
        return None;
    }
    let has = |other: &Kind| *other != kind && captions::read(*other, text).is_ok_and(|r| !r.captions.is_empty());
    let other = [Kind::Ass, Kind::Vtt, Kind::Srt].into_iter().find(has);
    let looks = other.map_or(String::new(), |k| format!("; it looks like {0}: say --kind {0}", k.name()));
    Some(format!("no caption was found in it: it was read as {}{looks}", kind.name()))
}

/// Lines with an arrow among the words of captions of SRT and WebVTT: the number, and what stands there.
pub fn arrows_inside(kind: Kind, read: &[Caption<'_>]) -> Vec<(u64, String)> {
    let blocks = if kind == Kind::Ass { &[] } else { read };
    let lines = blocks.iter().flat_map(|c| c.said.split(|b| *b == b'\n').zip(c.line + 1..));
    let arrows = lines.filter(|(line, _)| line.windows(3).any(|w| w == b"-->"));
    arrows.map(|(line, number)| (number, shown(String::from_utf8_lossy(line).trim()))).collect()
}

/// What is said of such a line.
pub const INSIDE: &str = "times inside a caption's lines; a blank line may be missing";
