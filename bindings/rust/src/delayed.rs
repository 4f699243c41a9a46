//! Captions that are delayed before they are retimed: by a map whose source starts are moved, so that what is proved of retiming holds of it.
use crate::{retime, Kind, Map, Segment, Stopped};
use std::fmt;

/// Ticks of the longest recording.
const MOST_TICKS: u128 = 1 << 53;
/// Ticks a second, at most.
const MOST_TIMESCALE: u128 = 1_000_000_000;
/// Units of a delay to a second.
const UNITS: u128 = 1_000;

/// Why a map can't be moved by a delay.
#[derive(Clone, Copy, Debug, PartialEq, Eq)]
#[non_exhaustive]
pub enum Undelayed {
    /// The delay is no whole number of ticks, and finer ticks would be more than 1,000,000,000 a second.
    NotInTicks,
    /// A stretch would end later than 2^53 ticks.
    TooFar,
}

impl fmt::Display for Undelayed {
    fn fmt(&self, f: &mut fmt::Formatter<'_>) -> fmt::Result {
        f.write_str(match self {
            Undelayed::NotInTicks => "the delay is no whole number of ticks of the recording: take another, by a few thousandths",
            Undelayed::TooFar => "the delay is too long: a stretch would end later than 2^53 ticks",
        })
    }
}

impl std::error::Error for Undelayed {}

impl Map {
    /// The map through which captions fare as they would through this one, were each of their times so many thousandths of a second later (or earlier, below zero).
    ///
    /// A caption that is delayed by d ticks meets a stretch that starts at q as the caption itself meets one that starts at q - d, and is moved to the same place. So source starts are moved by d. Where one
    /// would fall below zero, the stretch is cut down to what captions can reach, which begin at 0: its output start moves by as much. Where d is no whole number of ticks, all ticks are made finer first.
    /// One caption fares otherwise: one that ends at 0, which no stretch can meet (see [`ends_at_zero`]).
    ///
    /// ```
    /// use retimer::{Map, Segment};
    /// // 30,000 ticks a second; one stretch from 0 to 2 s, one from 4 to 5 s, and captions that are to come 1 s later
    /// let of = |source, output, duration| Segment { source, output, duration, ..Segment::default() };
    /// let map = Map::from_segments(30_000, &[of(0, 0, 60_000), of(120_000, 60_000, 30_000)]);
    /// let moved = Map::from_segments(30_000, &[of(0, 30_000, 30_000), of(90_000, 60_000, 30_000)]);
    /// assert_eq!(map.delayed(1_000), Ok(moved));
    /// let earlier = Map::from_segments(30_000, &[of(30_000, 0, 60_000), of(150_000, 60_000, 30_000)]);
    /// assert_eq!(map.delayed(-1_000), Ok(earlier));
    /// ```
    pub fn delayed(&self, thousandths: i64) -> Result<Map, Undelayed> {
        let ticks = u128::from(self.timescale()) * u128::from(thousandths.unsigned_abs());
        let finer = UNITS / greatest(ticks, UNITS);
        let timescale = u128::from(self.timescale()) * finer;
        if timescale > MOST_TIMESCALE {
            return Err(Undelayed::NotInTicks);
        }
        let delay = ticks * finer / UNITS;
        let moved = |s: Segment| if thousandths < 0 { earlier(s, finer, delay) } else { later(s, finer, delay) };
        let segments = self.segments().map(moved).collect::<Option<Vec<Segment>>>().ok_or(Undelayed::TooFar)?;
        Ok(Map::from_segments(timescale as u32, &segments))
    }
}

/// The greatest common divisor; b is not 0.
fn greatest(a: u128, b: u128) -> u128 {
    match a % b {
        0 => b,
        rest => greatest(b, rest),
    }
}

/// A stretch in finer ticks, where they are within the limits.
fn scaled(segment: Segment, finer: u128, source: u128, skipped: u128) -> Option<Segment> {
    let duration = u128::from(segment.duration) * finer - skipped;
    let output = u128::from(segment.output) * finer + skipped;
    let within = source + duration <= MOST_TICKS && output + duration <= MOST_TICKS;
    within.then_some(Segment { source: source as u64, output: output as u64, duration: duration as u64, ..segment })
}

/// Captions come later: the source starts earlier, and what lies before 0 goes.
fn later(segment: Segment, finer: u128, delay: u128) -> Option<Segment> {
    let source = u128::from(segment.source) * finer;
    let skipped = delay.saturating_sub(source).min(u128::from(segment.duration) * finer);
    scaled(segment, finer, source.saturating_sub(delay), skipped)
}

/// Captions come earlier: the source starts later.
fn earlier(segment: Segment, finer: u128, delay: u128) -> Option<Segment> {
    scaled(segment, finer, u128::from(segment.source) * finer + delay, 0)
}

/// How many captions of a text end at tick 0, by the library's own counts: they are those that a cut drops which keeps everything from 0 on.
///
/// ```
/// use retimer::{ends_at_zero, Kind};
/// let text = b"1\n00:00:00,000 --> 00:00:00,000\nA\n\n2\n00:00:00,000 --> 00:00:00,001\nB\n";
/// assert_eq!((ends_at_zero(Kind::Srt, 1_000, text).unwrap(), ends_at_zero(Kind::Srt, 25, text).unwrap()), (1, 2));
/// ```
pub fn ends_at_zero(kind: Kind, timescale: u32, text: &[u8]) -> Result<u64, Stopped> {
    let whole = Segment { duration: 1 << 53, ..Segment::default() };
    Ok(retime(kind, &Map::from_segments(timescale, &[whole]), text)?.counts.dropped)
}
