//! Captions of a text as a person sees them: line, times and words.
//!
//! [`read`] is the proved reader (`retimer_cues`): lines, times, the places of the words and the fault come from it. For every map the fates of the captions that it tells,
//! counted, are the counts of [`retime`](crate::retime), which is proved too. What is done here with words (tags taken out, cut to a length) is for showing them alone.
mod asked;
mod lines;
mod mend;
mod place;
mod rest;
mod words;

pub use asked::read_time;
pub(crate) use lines::{hint, trimmed, BOM};
pub(crate) use mend::mend;
pub(crate) use place::at;
pub use place::Place;
pub(crate) use rest::Rest;
pub use words::shown;

use crate::{ffi, why, Fate, Kind, Map, Refused, Warning};

/// What the times of a caption say.
#[derive(Clone, Copy, Debug, PartialEq, Eq)]
pub enum Times {
    /// Start and end, in units of the kind.
    Read {
        /// The start.
        start: u64,
        /// The end.
        stop: u64,
    },
    /// An ASS caption whose times are not looked for, and which passes unchanged.
    Passed {
        /// Why: 1, its Format line names no Start or no End; 2, it has fewer fields than the Format line.
        warning: u32,
    },
}

/// A caption of a text.
#[derive(Clone, Copy, Debug, PartialEq, Eq)]
pub struct Caption<'t> {
    /// Its line, counted from 1; in SRT and WebVTT the line of the times.
    pub line: u64,
    /// Its times.
    pub times: Times,
    /// The byte of the text at which its words begin.
    pub at: usize,
    /// Its words as they stand there: in ASS the last field, in SRT and WebVTT the lines below the times; of a caption that passes the whole line.
    pub said: &'t [u8],
    kind: Kind,
}

impl Caption<'_> {
    /// Its words: the text without tags and line ends.
    pub fn words(&self) -> String {
        words::plain(self.kind, self.said)
    }

    /// What becomes of it, as [`why`] tells; nothing where it has no times.
    pub fn fate(&self, map: &Map) -> Result<Option<Fate>, Refused> {
        match self.times {
            Times::Read { start, stop } => why(map, self.kind, start, stop).map(Some),
            Times::Passed { .. } => Ok(None),
        }
    }

    /// Why it passes unchanged; nothing of one that has times.
    pub fn passes(&self) -> Option<Warning> {
        match self.times {
            Times::Read { .. } => None,
            Times::Passed { warning } => Some(Warning { number: warning, line: self.line }),
        }
    }
}

/// What the reader tells of a text.
#[derive(Clone, Debug, PartialEq, Eq)]
pub struct Reading<'t> {
    /// The captions in the text's order; of a faulty text those before the fault's line (ASS) or block.
    pub captions: Vec<Caption<'t>>,
    /// The first fault (19 to 22, 24) and its line: of a block that is too long its first line, of an unreadable time the line of the times.
    pub fault: Option<(Refused, u64)>,
    kind: Kind,
    text: &'t [u8],
}

/// The captions of a text; 16 for one of more than 2^30 bytes.
///
/// ```
/// use retimer::{captions, Kind, Refused};
/// use retimer::captions::Times;
/// let text = b"1\n00:00:01,000 --> 00:00:02,500\n<i>Good\nevening.</i>\n\n2\n00:00:03,000 --> soon\nWait\n";
/// let reading = captions::read(Kind::Srt, text)?;
/// let first = &reading.captions[0];
/// assert_eq!((first.line, first.times), (2, Times::Read { start: 1_000, stop: 2_500 }));
/// assert_eq!((first.at, first.said), (32, &b"<i>Good\nevening.</i>\n"[..]));
/// assert_eq!(first.words(), "Good evening.");
/// // the text is read up to its first fault
/// assert_eq!((reading.captions.len(), reading.fault), (1, Some((Refused(22), 7))));
/// assert_eq!(reading.place().unwrap().to_string(), "line 7: \"00:00:03,000 --> soon Wait\"");
/// # Ok::<(), Refused>(())
/// ```
pub fn read(kind: Kind, text: &[u8]) -> Result<Reading<'_>, Refused> {
    if text.len() > MOST_BYTES {
        return Err(Refused(16));
    }
    let (number, rows, line) = rows(kind, text);
    let fault = (number != 0).then_some((Refused(number), line));
    Ok(Reading { captions: rows.chunks_exact(ROW).map(|row| caption(kind, text, row)).collect(), fault, kind, text })
}

/// Bytes of a text, at most.
const MOST_BYTES: usize = 1 << 30;
/// Numbers of a row.
const ROW: usize = 6;

/// The number of a text, its rows, and the line of its fault. Rows are lent for as many captions as texts of this length mostly have; where they are too few (16), for more.
fn rows(kind: Kind, text: &[u8]) -> (u32, Vec<u64>, u64) {
    let mut lent = text.len() / 32 + 16;
    loop {
        let (mut rows, mut told) = (vec![0; ROW * lent], [0; 2]);
        let number = ffi::cues(kind.number(), text, &mut rows, &mut told);
        if number != 16 {
            rows.truncate(ROW * told[0] as usize);
            return (number, rows, told[1]);
        }
        lent *= 4;
    }
}

fn caption<'t>(kind: Kind, text: &'t [u8], row: &[u64]) -> Caption<'t> {
    let (at, size) = (row[4] as usize, row[5] as usize);
    let times = match row[1] {
        0 => Times::Read { start: row[2], stop: row[3] },
        warning => Times::Passed { warning: warning as u32 },
    };
    Caption { line: row[0], times, at, said: &text[at..at + size], kind }
}
