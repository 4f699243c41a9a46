//! The words of a caption, for people to find it by.
use crate::Kind;

/// Characters of words that are shown, at most.
const MOST_SHOWN: usize = 60;

/// Words as they are shown: at most 60 characters, then `..`.
///
/// ```
/// use retimer::captions::shown;
/// assert_eq!(shown("Good evening."), "Good evening.");
/// assert_eq!(shown(&"la ".repeat(30)), format!("{}..", "la ".repeat(20)));
/// ```
pub fn shown(words: &str) -> String {
    match words.char_indices().nth(MOST_SHOWN) {
        Some((end, _)) => format!("{}..", &words[..end]),
        None => words.to_string(),
    }
}

/// A caption's text without tags, its lines joined by spaces.
pub(crate) fn plain(kind: Kind, said: &[u8]) -> String {
    let said = String::from_utf8_lossy(said);
    match kind {
        Kind::Ass => joined(&untagged(&said, '{', '}').replace("\\N", " ").replace("\\n", " ").replace("\\h", " ")),
        Kind::Srt | Kind::Vtt => joined(&untagged(&said, '<', '>')),
    }
}

/// Without what stands between two brackets; an opening one that is not closed before the next stays.
fn untagged(text: &str, open: char, close: char) -> String {
    let (mut out, mut rest) = (String::new(), text);
    while let Some(at) = rest.find(open) {
        let (before, tag) = rest.split_at(at);
        out.push_str(before);
        let inside = &tag[open.len_utf8()..];
        match inside.find([open, close]) {
            Some(end) if inside[end..].starts_with(close) => rest = &inside[end + close.len_utf8()..],
            _ => {
                out.push(open);
                rest = inside;
            }
        }
    }
    out + rest
}

/// One space in the place of white space and control characters, none at the ends.
pub(crate) fn joined(text: &str) -> String {
    let words = text.split(|c: char| c.is_whitespace() || c.is_control()).filter(|w| !w.is_empty());
    words.collect::<Vec<_>>().join(" ")
}
