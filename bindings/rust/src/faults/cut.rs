//! The faults of trims in a recording (8 to 10, 26): the first entry with which the map is refused, then without that entry the next.
use super::list::{entries, Entry};
use super::Fault;
use crate::captions::shown;
use crate::{Direction, Map};

/// Faults that [`in_cut`] looks for, at most.
pub const MOST_IN_CUT: usize = 50;

/// The faults of a good list in a sound sheet, at most 50; none where the map is made.
///
/// ```
/// use retimer::{faults, Direction, Sheet};
/// let sheet = Sheet::in_order(30_000, (30_000, 1_001), vec![1_001; 10], [0, 3, 6]).to_bytes()?;
/// let told = faults::in_cut(&sheet, b"Trim(0,3) ++ Trim(4,5)", Direction::Outward);
/// assert_eq!(told[0].to_string(), "refused 8: two trims overlap once they are widened to cutting places \
///     (entry 2, line 1: Trim(4,5), which becomes frames 3 to 5; entry 1, Trim(0,3), becomes frames 0 to 5)");
/// # Ok::<(), retimer::Refused>(())
/// ```
pub fn in_cut(sheet: &[u8], list: &[u8], direction: Direction) -> Vec<Fault> {
    in_cut_up_to(sheet, list, direction, MOST_IN_CUT)
}

/// The same, at most so many.
pub fn in_cut_up_to(sheet: &[u8], list: &[u8], direction: Direction, most: usize) -> Vec<Fault> {
    let mut left = entries(list);
    let mut all = Vec::new();
    let Err(first) = Map::new(sheet, list, direction) else { return all };
    let made = |part: &[Entry<'_>]| Map::new(sheet, &joined(part), direction);
    while all.len() < most && !left.is_empty() && made(&left).is_err() {
        // the entries up to `bad` are refused, those before it are not
        let (mut good, mut bad) = (0, left.len());
        while bad - good > 1 {
            let middle = (good + bad) / 2;
            if made(&left[..middle]).is_err() {
                bad = middle;
            } else {
                good = middle;
            }
        }
        let number = made(&left[..bad]).err().map_or(first.0, |r| r.0);
        all.push(Fault::new(number, told(number, &left[..bad], &made)));
        left.remove(bad - 1);
    }
    if all.is_empty() {
        let place = if entries(list).is_empty() { "the whole recording is kept" } else { "its place is not known" };
        all.push(Fault::new(first.0, place));
    }
    all
}

/// A list of these entries.
fn joined(part: &[Entry<'_>]) -> Vec<u8> {
    part.iter().map(|e| e.text).collect::<Vec<_>>().join(&b"++"[..])
}

/// The last of the entries, which is at fault, and what it becomes; where two overlap also the one before it.
fn told(number: u32, part: &[Entry<'_>], made: &impl Fn(&[Entry<'_>]) -> Result<Map, crate::Refused>) -> String {
    let Some((entry, before)) = part.split_last() else { return String::new() };
    let mut text = entry.shown();
    if number != 8 {
        return text;
    }
    if let Some(frames) = frames(entry, made) {
        text += &format!(", which becomes {frames}");
    }
    if let Some(last) = before.last() {
        let entry = shown(String::from_utf8_lossy(last.text).trim());
        let becomes = frames(last, made).map_or(String::new(), |frames| format!(", becomes {frames}"));
        text += &format!("; entry {}, {entry}{becomes}", last.place);
    }
    text
}

/// The frames that an entry by itself becomes.
fn frames(entry: &Entry<'_>, made: &impl Fn(&[Entry<'_>]) -> Result<Map, crate::Refused>) -> Option<String> {
    let map = made(&[*entry]).ok()?;
    let segment = map.segments().next()?;
    Some(format!("frames {} to {}", segment.start_frame, segment.end_frame.saturating_sub(1)))
}
