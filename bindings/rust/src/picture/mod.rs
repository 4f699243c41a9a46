//! The picture of a cut as SVG: the recording above, the cut below, kept stretches joined, each caption where it was and where
//! it is. Plain data in, a text out: the same data give the same text.

mod bars;
mod clock;
mod fold;
mod ground;
mod head;
mod lanes;
mod list;
mod overview;
mod pen;
mod place;
mod play;
mod row;
mod sides;
mod text;

use fold::Part;
use pen::Pen;
use play::Play;

/// What is drawn: a recording, what is kept of it, and what became of its captions.
#[derive(Clone, Copy, Debug)]
pub struct Cut<'a> {
    /// The heading, one line.
    pub title: &'a str,
    /// Ticks a second; 0 counts as 1.
    pub timescale: u32,
    /// Ticks of the whole recording; where they are not known, it is drawn as far as stretches and captions reach.
    pub recording: Option<u64>,
    /// What is kept, in the order of the map.
    pub segments: &'a [Stretch],
    /// The captions, in the order of their text.
    pub captions: &'a [Drawn],
}

/// A kept stretch, in ticks. Stretches need not ascend, and may be empty.
#[derive(Clone, Copy, Debug, PartialEq, Eq)]
pub struct Stretch {
    /// Where it begins in the recording.
    pub source: u64,
    /// Where it begins in the cut.
    pub output: u64,
    /// How long it lasts.
    pub duration: u64,
}

/// A caption and what became of it.
#[derive(Clone, Debug, PartialEq, Eq)]
pub struct Drawn {
    /// Its line in the captions, from 1.
    pub line: u64,
    /// Its start in the recording, in ticks.
    pub start: u64,
    /// Its end in the recording, in ticks; it may lie before the start.
    pub end: u64,
    /// What became of it.
    pub fate: Fate,
    /// Where it is kept.
    pub new: Option<New>,
    /// The numbers of its warnings.
    pub warnings: Vec<u64>,
    /// What it says; line ends and other control characters are drawn as spaces.
    pub words: String,
}

/// Where a caption is kept.
#[derive(Clone, Copy, Debug, PartialEq, Eq)]
pub struct New {
    /// The place of its stretch in the map, from 0.
    pub stretch: usize,
    /// Its start in the cut, in ticks.
    pub start: u64,
    /// Its end in the cut, in ticks.
    pub end: u64,
    /// Whether something was cut off at its start, and at its end.
    pub torn: (bool, bool),
}

/// What became of a caption.
#[derive(Clone, Copy, Debug, PartialEq, Eq, PartialOrd, Ord)]
pub enum Fate {
    /// Kept whole.
    Shifted,
    /// Kept, with an end cut off.
    Clipped,
    /// Not kept.
    Dropped,
    /// Left as it was, since its times could not be told. With start and end 0 it is listed but has no bar.
    Passed,
}

/// The picture of `cut` as a whole SVG file.
///
/// ```
/// use retimer::picture::{svg, Cut, Drawn, Fate, New, Stretch};
/// // of a minute the first half is kept; a caption ends in it, another one is lost
/// let segments = [Stretch { source: 0, output: 0, duration: 30_000 }];
/// let new = Some(New { stretch: 0, start: 28_000, end: 30_000, torn: (false, true) });
/// let captions = [
///     Drawn { line: 2, start: 28_000, end: 33_000, fate: Fate::Clipped, new, warnings: vec![], words: "Good evening.".into() },
///     Drawn { line: 6, start: 40_000, end: 42_500, fate: Fate::Dropped, new: None, warnings: vec![], words: "Who's there?".into() },
/// ];
/// let picture = svg(&Cut { title: "The Lamp", timescale: 1_000, recording: Some(60_000), segments: &segments, captions: &captions });
/// assert!(picture.starts_with("<svg ") && picture.contains("What vanished: 1 caption dropped"));
/// assert!(picture.contains("<title>line 6: 0:00:40.00 – 0:00:42.50, dropped: Who's there?</title>"));
/// ```
pub fn svg(cut: &Cut) -> String {
    let play = Play::new(cut);
    let parts = fold::fold(&play);
    let mut pen = Pen::default();
    let mut y = head::draw(&play, &mut pen);
    if parts.len() > fold::FEW_ROWS {
        y += pen.below(y, |pen| overview::draw(&play, pen));
    }
    for part in &parts {
        y += pen.below(y, |pen| match part {
            Part::Row(row) => row::draw(&play, row, pen),
            Part::Gap(from, to) => row::gap(&play, (*from, *to), 0, pen),
            Part::Shifted { from, to, captions } => row::gap(&play, (*from, *to), *captions, pen),
        });
    }
    y += pen.below(y, |pen| list::draw(&play, pen));
    head::file(&play, &pen, y)
}
