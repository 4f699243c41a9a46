//! The faults of a caption text. The reader tells the first one with its line; in a copy that is set right, and the copy is read again.
use super::Fault;
use crate::captions::{at, hint, mend, read};
use crate::Kind;
use std::borrow::Cow;

/// Faults that are looked for, at most: each costs a reading of the whole text.
const MOST: usize = 100;
/// Bytes that are read, at most, before the search ends.
const MOST_READ: usize = 1 << 32;

/// The faults of a text.
#[derive(Clone, Debug, Default, PartialEq, Eq)]
pub struct InText {
    /// In the order in which the reader meets them.
    pub faults: Vec<Fault>,
    /// Whether the search ended before the text did, so that there may be more.
    pub more: bool,
}

/// The faults of a text, at most 100; none where it can be retimed. `progress` is told how many bytes are before the fault that is set right.
///
/// ```
/// use retimer::{faults::in_captions, Kind};
/// let text = b"1\n00:00:01,000 --> soon\nWait\n\n2\n00:00:02,000 --> 00:00:03,000\nHere\n\n3\n0:0:4 --> 0:0:5\nNow\n";
/// let told: Vec<String> = in_captions(Kind::Srt, text, &mut |_| {}).faults.iter().map(|f| f.to_string()).collect();
/// assert_eq!(told, [
///     "refused 22: a caption's time can't be read (line 2: \"00:00:01,000 --> soon Wait\")",
///     "refused 22: a caption's time can't be read (line 10: \"0:0:4 --> 0:0:5 Now\")",
/// ]);
/// ```
pub fn in_captions(kind: Kind, text: &[u8], progress: &mut dyn FnMut(usize)) -> InText {
    let mut found = InText::default();
    let (mut copy, mut left) = (Cow::Borrowed(text), MOST_READ);
    loop {
        let reading = match read(kind, &copy) {
            Ok(reading) => reading,
            Err(refused) => {
                found.faults.push(Fault { refused, place: format!("{} bytes, and a text has at most 2^30", text.len()) });
                return found;
            }
        };
        let Some((refused, line)) = reading.fault else { return found };
        if found.faults.len() == MOST || left == 0 {
            found.more = true;
            return found;
        }
        let place = at(refused.0, kind, text, line).to_string();
        found.faults.push(Fault { refused, place: place + hint(refused.0, &copy) });
        left = left.saturating_sub(copy.len());
        progress(mend(kind, copy.to_mut(), refused.0, line));
    }
}
