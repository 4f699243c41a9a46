//! The faults of a trim list. Each entry is asked for by itself, and behind the last sound one before it.
use super::Fault;
use crate::captions::{hint, shown, trimmed, BOM};
use crate::{check_list, Refused};

const MOST_BYTES: usize = 65_536;
const MOST_TRIMS: usize = 1_024;

/// An entry of a list: what stands between two `++`, its place counted from 1, and its line.
#[derive(Clone, Copy)]
pub(super) struct Entry<'l> {
    pub place: usize,
    pub line: usize,
    pub text: &'l [u8],
}

impl Entry<'_> {
    /// `entry 2, line 1: Trim(5,1)`.
    pub fn shown(&self) -> String {
        let text = String::from_utf8_lossy(self.text);
        let text = shown(&text.split_whitespace().collect::<Vec<_>>().join(" "));
        format!("entry {}, line {}: {}", self.place, self.line, if text.is_empty() { "nothing stands there" } else { &text })
    }
}

/// The entries of a list, parted by `++` from the left; a blank list has none.
pub(super) fn entries(list: &[u8]) -> Vec<Entry<'_>> {
    let (mut all, mut line, mut rest) = (Vec::new(), 1, Some(list));
    if trimmed(list).is_empty() {
        return all;
    }
    while let Some(text) = rest {
        let cut = text.windows(2).position(|w| w == b"++");
        let entry = &text[..cut.unwrap_or(text.len())];
        let head = entry.len() - entry.trim_ascii_start().len();
        let ends = |part: &[u8]| part.iter().filter(|b| **b == b'\n').count();
        all.push(Entry { place: all.len() + 1, line: line + ends(&entry[..head]), text: entry });
        line += ends(entry);
        rest = cut.map(|k| &text[k + 2..]);
    }
    all
}

/// All faults of a list; none where it is good.
///
/// ```
/// use retimer::faults::in_list;
/// assert!(in_list(b"Trim(0,2) ++ Trim(6,8)\r\n").is_empty());
/// let told: Vec<String> = in_list(b"Trim(5,1) ++ Trim(0,9) ++\nTrim(7,20)").iter().map(|f| f.to_string()).collect();
/// assert_eq!(told, [
///     "refused 4: a is greater than b (entry 1, line 1: Trim(5,1))",
///     "refused 6: a trim begins before the one before it has ended (entry 3, line 2: Trim(7,20), behind entry 2: Trim(0,9))",
/// ]);
/// ```
pub fn in_list(list: &[u8]) -> Vec<Fault> {
    let Err(Refused(first)) = check_list(list) else { return Vec::new() };
    let mut all = limits(list);
    let mut behind: Option<Entry<'_>> = None;
    for mut entry in entries(list).into_iter().take(MOST_TRIMS) {
        if let Some(text) = entry.text.strip_prefix(BOM).filter(|_| entry.place == 1) {
            if let Err(Refused(number)) = check_list(entry.text) {
                all.push(Fault::new(number, "line 1: the list begins with a byte order mark: save it without"));
            }
            entry.text = text;
        }
        match number_of(entry, behind) {
            0 => behind = Some(entry),
            6 => all.push(crossing(entry, behind)),
            number => all.push(Fault::new(number, entry.shown() + hint(number, entry.text))),
        }
    }
    if all.is_empty() {
        all.push(Fault::new(first, "its place is not known"));
    }
    all
}

/// 7: too many bytes, or too many entries.
fn limits(list: &[u8]) -> Vec<Fault> {
    let (mut all, count) = (Vec::new(), entries(list).len());
    if list.len() > MOST_BYTES {
        all.push(Fault::new(7, format!("{} bytes", list.len())));
    }
    if count > MOST_TRIMS {
        all.push(Fault::new(7, format!("{count} trims, of which {MOST_TRIMS} are looked at")));
    }
    all
}

/// The number of an entry by itself, or else behind a sound one. A list that is blank is good; an entry that is blank is not, so it is asked for as two.
fn number_of(entry: Entry<'_>, behind: Option<Entry<'_>>) -> u32 {
    let number = |list: &[u8]| check_list(list).err().map_or(0, |r| r.0);
    let text = trimmed(entry.text);
    if text.is_empty() {
        return number(b"++");
    }
    match (number(text), behind) {
        (0, Some(before)) => number(&[trimmed(before.text), b"++", text].concat()),
        (alone, _) => alone,
    }
}

fn crossing(entry: Entry<'_>, behind: Option<Entry<'_>>) -> Fault {
    let before = behind.map_or(String::new(), |b| {
        let text = String::from_utf8_lossy(b.text);
        format!(", behind entry {}: {}", b.place, shown(text.trim()))
    });
    Fault::new(6, entry.shown() + &before)
}
