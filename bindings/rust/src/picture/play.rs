//! What is to be drawn, measured: where each caption lies in the recording, what of it is kept, and how large things are.
use super::clock::{clock, rounded, span, thousandths};
use super::text::clean;
use super::{Cut, Drawn, Fate, New, Stretch};

/// So few captions have room for their words, on a page that can stand in a text.
const FEW: usize = 100;
/// Where times end on the page of many.
const WIDE: f64 = 1576.0;

/// How large things are drawn: the more captions, the smaller.
#[derive(Clone, Copy)]
pub struct Look {
    /// Where times end.
    pub right: f64,
    /// The median caption's width.
    pub caption: f64,
    /// A bar's height.
    pub bar: f64,
    /// The size of words in bars, and how many lines of them.
    pub size: f64,
    pub lines: usize,
    /// The height between recording and cut.
    pub join: f64,
    /// The most lanes of bars; those that vanished, were cut or are warned of may take twice as many.
    pub lanes: usize,
    /// The room above and below the bars, and below the row.
    pub edge: f64,
    pub after: f64,
}

impl Look {
    fn of(captions: usize) -> Look {
        match captions {
            n if n <= FEW => Look { right: 1076.0, caption: 118.0, bar: 36.0, size: 13.0, lines: 2, join: 52.0, lanes: 4, edge: 5.0, after: 18.0 },
            n if n <= 1000 => Look { right: WIDE, caption: 100.0, bar: 18.0, size: 11.0, lines: 1, join: 44.0, lanes: 5, edge: 5.0, after: 18.0 },
            n if n <= 3000 => Look { right: WIDE, caption: 62.0, bar: 16.0, size: 10.5, lines: 1, join: 38.0, lanes: 5, edge: 4.0, after: 16.0 },
            _ => Look { right: WIDE, caption: 42.0, bar: 14.0, size: 10.0, lines: 1, join: 34.0, lanes: 4, edge: 4.0, after: 16.0 },
        }
    }

    /// The look of a row in which every caption is shifted, and by as much: low, and without words where there are many.
    pub fn quiet(captions: usize) -> Look {
        if captions <= FEW {
            return Look::of(captions);
        }
        Look { bar: 6.0, lines: 0, join: 10.0, edge: 2.0, after: 14.0, ..Look::of(captions) }
    }
}

/// The part of a caption that is kept, in ticks of the recording.
#[derive(Clone, Copy)]
pub struct Kept {
    pub stretch: usize,
    pub from: u64,
    pub to: u64,
    /// Whether its start and its end are cut off.
    pub torn: (bool, bool),
}

/// A caption in its place.
pub struct Caption<'a> {
    pub told: &'a Drawn,
    /// Where it lies in the recording, the lower tick first; a passed one without times lies nowhere.
    pub span: Option<(u64, u64)>,
    pub kept: Option<Kept>,
    /// Its words on one line.
    pub words: String,
}

/// How many captions fared how.
#[derive(Clone, Copy, Default)]
pub struct Counts {
    pub shifted: usize,
    pub clipped: usize,
    pub dropped: usize,
    pub passed: usize,
    pub warned: usize,
}

/// A cut, measured.
pub struct Play<'a> {
    pub cut: &'a Cut<'a>,
    pub timescale: u32,
    pub captions: Vec<Caption<'a>>,
    /// Where the recording ends: no stretch reaches further, and it is not 0.
    pub end: u64,
    pub look: Look,
    /// Whether every time of a caption is a whole hundredth of a second.
    hundredths: bool,
}

/// Where a stretch ends in the recording.
pub fn end_of(s: &Stretch) -> u64 {
    s.source.saturating_add(s.duration)
}

impl<'a> Play<'a> {
    pub fn new(cut: &'a Cut<'a>) -> Play<'a> {
        let ends = cut.segments.iter().map(end_of);
        let end = match cut.recording {
            Some(ticks) => ends.max().unwrap_or(0).max(ticks),
            None => ends.chain(cut.captions.iter().map(|c| c.start.max(c.end))).max().unwrap_or(0),
        };
        let end = end.max(1);
        let captions = cut.captions.iter().map(|told| Caption { told, span: place(told), kept: kept(told, cut.segments), words: clean(&told.words) });
        let timescale = cut.timescale.max(1);
        let whole = |ticks: u64| thousandths(ticks, timescale).is_multiple_of(10);
        let hundredths = cut.captions.iter().all(|c| whole(c.start) && whole(c.end) && c.new.is_none_or(|n| whole(n.start) && whole(n.end)));
        Play { cut, timescale, captions: captions.collect(), end, look: Look::of(cut.captions.len()), hundredths }
    }

    /// The times of a caption, with as many decimals as all need.
    pub fn span(&self, times: (u64, u64)) -> String {
        if !self.hundredths {
            return span(times, self.timescale);
        }
        let [from, to] = [times.0, times.1].map(|t| clock(thousandths(t, self.timescale) * 1_000_000, 2));
        format!("{from} – {to}")
    }

    /// When a stretch begins, rounded down, as `why` has it: to the hundredth where all captions' times are, else to the thousandth.
    pub fn from(&self, ticks: u64) -> String {
        rounded(ticks, self.timescale, if self.hundredths { 2 } else { 3 }, false)
    }

    /// When a stretch ends, rounded up.
    pub fn to(&self, ticks: u64) -> String {
        rounded(ticks, self.timescale, if self.hundredths { 2 } else { 3 }, true)
    }

    /// How the captions with these places in the list fared.
    pub fn counts(&self, which: impl Iterator<Item = usize>) -> Counts {
        let mut c = Counts::default();
        for told in which.map(|k| self.captions[k].told) {
            c.warned += usize::from(!told.warnings.is_empty());
            match told.fate {
                Fate::Shifted => c.shifted += 1,
                Fate::Clipped => c.clipped += 1,
                Fate::Dropped => c.dropped += 1,
                Fate::Passed => c.passed += 1,
            }
        }
        c
    }
}

fn place(told: &Drawn) -> Option<(u64, u64)> {
    let nowhere = told.fate == Fate::Passed && told.start == 0 && told.end == 0;
    (!nowhere).then_some((told.start.min(told.end), told.start.max(told.end)))
}

/// The caption's times in the cut, led back into its stretch.
fn kept(told: &Drawn, stretches: &[Stretch]) -> Option<Kept> {
    let New { stretch, start, end, torn } = told.new.filter(|_| matches!(told.fate, Fate::Shifted | Fate::Clipped))?;
    let s = stretches.get(stretch)?;
    let back = |t: u64| s.source.saturating_add(t.saturating_sub(s.output).min(s.duration));
    Some(Kept { stretch, from: back(start.min(end)), to: back(start.max(end)), torn })
}
