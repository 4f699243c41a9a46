//! A time that is asked for by itself, as a person types it.
use super::{read, Times};
use crate::Kind;

/// A time of captions in units: hundredths in ASS, thousandths in SRT and WebVTT. Nothing where it can't be read. It is read as the start of a caption, by [`read`].
///
/// ```
/// use retimer::{captions::read_time, Kind};
/// assert_eq!(read_time(Kind::Ass, "0:59:59.99"), Some(359_999));
/// assert_eq!(read_time(Kind::Ass, "0:60:00.00"), None);
/// assert_eq!(read_time(Kind::Srt, "00:00:01.500"), Some(1_500));
/// assert_eq!(read_time(Kind::Vtt, "00:01.500"), Some(1_500));
/// ```
pub fn read_time(kind: Kind, time: &str) -> Option<u64> {
    // what would begin another line, or end the time, is no time
    if time.contains('\n') || time.contains("-->") {
        return None;
    }
    let text = match kind {
        Kind::Ass => format!("[Events]\nFormat: Start, End\nDialogue: {time},0:00:00.00"),
        Kind::Srt => format!("1\n{time} --> 00:00:00,000"),
        Kind::Vtt => format!("WEBVTT\n\n{time} --> 00:00.000"),
    };
    match read(kind, text.as_bytes()).ok()?.captions[..] {
        [caption] => match caption.times {
            Times::Read { start, .. } => Some(start),
            Times::Passed { .. } => None,
        },
        _ => None,
    }
}

#[cfg(test)]
mod tests {
    use super::*;

    /// What a time must not bring in: another line, another caption, a byte order mark, a second field, more than a line can hold.
    #[test]
    fn no_times() {
        let long = " ".repeat(5_000);
        for time in ["", "x", "\n0:0:1,0", "0:0:1,0\n\n0:0:2,0", "00:01.000 --> 00:02.000 x", "0:0:1,0 --> 0:0:2,0\n", "\u{FEFF}00:00:01,000", "0:00:01.00,0:00:02.00", "0:00:01.00,", "-1:00:00,000", &long] {
            assert!(Kind::ALL.iter().all(|kind| read_time(*kind, time).is_none()), "{time}");
        }
        assert_eq!(read_time(Kind::Srt, " 00:00:01,1000"), None);
        assert_eq!(read_time(Kind::Srt, "\u{3000}+0:+0:+1,+5 "), Some(1_005));
        assert_eq!(read_time(Kind::Ass, "9999:59:59.99"), Some(3_599_999_999));
        assert_eq!(read_time(Kind::Vtt, "0:01.000"), None);
    }
}
