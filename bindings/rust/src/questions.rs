//! Questions about a cut: what becomes of one caption and why, what is sure of one whose times are known only roughly, how starts fare, and
//! which delay loses least.
use crate::{ffi, ticks_to_units_ceil, ticks_to_units_floor, units_to_ticks, Kind, Map, Refused};
use std::ops::RangeInclusive;

/// Why a caption does not meet a segment: the first that applies.
#[derive(Clone, Copy, Debug, PartialEq, Eq)]
pub enum Cause {
    /// The segment has no length.
    NoLength,
    /// It ends at or before the caption's start.
    EndsBefore,
    /// It starts at or after the caption's end.
    StartsAfter,
}

/// What becomes of a caption, and the reason.
#[derive(Clone, Debug, PartialEq, Eq)]
pub enum Fate {
    /// Kept.
    Kept {
        /// The place of its segment in the list, from 0: the first that it meets.
        place: usize,
        /// Ticks cut off at its start.
        start_cut: u64,
        /// Ticks cut off at its end.
        end_cut: u64,
    },
    /// Dropped: for each segment, in list order, why it is not met.
    Dropped(Vec<Cause>),
}

impl Fate {
    /// Kept, and nothing was cut off.
    pub fn is_shifted(&self) -> bool {
        matches!(self, Fate::Kept { start_cut: 0, end_cut: 0, .. })
    }

    /// Dropped.
    pub fn is_dropped(&self) -> bool {
        matches!(self, Fate::Dropped(_))
    }

    /// Start and end in the cut, in units of the kind, as [`retime`](crate::retime) writes them; nothing of a dropped caption. `start` and `stop` are the times that the fate was
    /// asked for: as ticks, without what was cut off and moved with the segment, the start is rounded down, the end up.
    ///
    /// ```
    /// use retimer::{why, Kind, Map};
    /// let map = Map::from_numbers(30_000, vec![0, 3, 0, 3, 0, 3_003, 6, 10, 6_006, 4, 3_003, 4_004]);
    /// let fate = why(&map, Kind::Ass, 21, 25)?;
    /// assert_eq!(fate.moved(&map, Kind::Ass, 21, 25)?, Some([10, 15]));
    /// # Ok::<(), retimer::Refused>(())
    /// ```
    pub fn moved(&self, map: &Map, kind: Kind, start: u64, stop: u64) -> Result<Option<[u64; 2]>, Refused> {
        let Fate::Kept { place, start_cut, end_cut } = self else { return Ok(None) };
        let Some(segment) = map.segments().nth(*place) else { return Ok(None) };
        let moved = |tick: u64| tick.saturating_sub(segment.source).saturating_add(segment.output);
        let from = units_to_ticks(start, map.timescale, kind)?.saturating_add(*start_cut);
        let to = units_to_ticks(stop, map.timescale, kind)?.saturating_sub(*end_cut);
        Ok(Some([ticks_to_units_floor(moved(from), map.timescale, kind)?, ticks_to_units_ceil(moved(to), map.timescale, kind)?]))
    }
}

/// What becomes of a caption from `start` to `stop`, in units of its kind, at most 2^36 each, and why: it is what [`retime`](crate::retime) does with it. 15 for a
/// map outside the limits, 16 for a time above its limit.
///
/// ```
/// use retimer::{why, Cause, Fate, Kind, Map};
/// let map = Map::from_numbers(30_000, vec![0, 3, 0, 3, 0, 3_003, 6, 10, 6_006, 4, 3_003, 4_004]);
/// assert_eq!(why(&map, Kind::Ass, 5, 25), Ok(Fate::Kept { place: 0, start_cut: 0, end_cut: 4_497 }));
/// assert_eq!(why(&map, Kind::Ass, 12, 20), Ok(Fate::Dropped(vec![Cause::EndsBefore, Cause::StartsAfter])));
/// ```
pub fn why(map: &Map, kind: Kind, start: u64, stop: u64) -> Result<Fate, Refused> {
    let mut causes = vec![0; map.numbers.len() / 6];
    let (number, [fate, place, start_cut, end_cut]) = ffi::why(&map.numbers, map.timescale, kind.number(), start, stop, &mut causes);
    Refused::unless_done(number)?;
    if fate != 0 {
        return Ok(Fate::Kept { place: place as usize, start_cut, end_cut });
    }
    let told = causes.iter().map(|k| match k {
        1 => Cause::NoLength,
        2 => Cause::EndsBefore,
        _ => Cause::StartsAfter,
    });
    Ok(Fate::Dropped(told.collect()))
}

/// What is sure of a caption whose start and end are each known between two ticks.
#[derive(Clone, Copy, Debug, PartialEq, Eq)]
pub enum Judgement {
    /// Kept, whatever its times are.
    SurelyKept,
    /// Dropped, whatever its times are.
    SurelyDropped,
    /// Kept at one choice of its times, dropped at another.
    Unsure,
}

/// What is sure of a caption that starts within `start` and ends within `end`, in ticks, both bounds included. 15 for a map outside the limits, 16 for a
/// range whose lower bound is above its upper one.
///
/// ```
/// use retimer::{rough, Judgement, Map};
/// let map = Map::from_numbers(30_000, vec![0, 3, 0, 3, 0, 3_003, 6, 10, 6_006, 4, 3_003, 4_004]);
/// assert_eq!(rough(&map, 3_003..=6_000, 3_003..=6_006), Ok(Judgement::SurelyDropped));
/// assert_eq!(rough(&map, 3_003..=6_000, 3_003..=6_007), Ok(Judgement::Unsure));
/// ```
pub fn rough(map: &Map, start: RangeInclusive<u64>, end: RangeInclusive<u64>) -> Result<Judgement, Refused> {
    let (number, told) = ffi::rough(&map.numbers, (*start.start(), *start.end()), (*end.start(), *end.end()));
    Refused::unless_done(number)?;
    Ok(match told {
        0 => Judgement::SurelyDropped,
        1 => Judgement::SurelyKept,
        _ => Judgement::Unsure,
    })
}

/// How captions fare at the starts that were asked for: the three sum to their count.
#[derive(Clone, Copy, Debug, Default, PartialEq, Eq)]
pub struct Starts {
    /// Kept whole.
    pub shifted: u64,
    /// Kept, with an end cut off.
    pub clipped: u64,
    /// Not kept.
    pub dropped: u64,
}

/// How a caption `length` units long would fare at the starts 0 to `count` - 1, in units of its kind. 15 for a map outside the limits, 28 where its segments of
/// positive duration do not ascend without overlap in source and output, 16 for a length or a count above 36,000,000.
///
/// ```
/// use retimer::{census, Kind, Map, Starts};
/// let map = Map::from_numbers(30_000, vec![0, 3, 0, 3, 0, 3_003, 6, 10, 6_006, 4, 3_003, 4_004]);
/// assert_eq!(census(&map, Kind::Ass, 4, 40), Ok(Starts { shifted: 16, clipped: 12, dropped: 12 }));
/// ```
pub fn census(map: &Map, kind: Kind, length: u64, count: u64) -> Result<Starts, Refused> {
    let mut told = Starts::default();
    Refused::unless_done(ffi::census(&map.numbers, map.timescale, kind.number(), length, count, &mut told))?;
    Ok(told)
}

/// What a search for the best delay found.
#[derive(Clone, Copy, Debug, Default, PartialEq, Eq)]
pub struct BestDelay {
    /// Units to add to every time, -6000 to 6000.
    pub delay: i64,
    /// Captions that are lost under it: a time below zero, clipped or dropped.
    pub loss: u32,
    /// Delays that were tried: 12,001, or the budget where that is smaller.
    pub tried: u32,
    /// No delay at all, tried or not, loses fewer than `loss - off`.
    pub off: u32,
}

/// The delay that loses least of the first `budget` in the order 0, 1, -1, 2, -2 to 6000, -6000; of equal ones the first. Captions are start and end in units of
/// their kind. 15 for a map outside the limits, 29 for budget 0 or more than 4,096 captions, 16 for a time above 2^36.
///
/// ```
/// use retimer::{best_delay, BestDelay, Kind, Map};
/// let map = Map::from_numbers(30_000, vec![0, 3, 0, 3, 0, 3_003, 6, 10, 6_006, 4, 3_003, 4_004]);
/// let best = best_delay(&map, Kind::Ass, &[[9, 12]], 5)?;
/// assert_eq!(best, BestDelay { delay: -2, loss: 0, tried: 5, off: 0 });
/// # Ok::<(), retimer::Refused>(())
/// ```
pub fn best_delay(map: &Map, kind: Kind, captions: &[[u64; 2]], budget: u32) -> Result<BestDelay, Refused> {
    let mut told = BestDelay::default();
    Refused::unless_done(ffi::flat_delay(&map.numbers, map.timescale, kind.number(), captions.as_flattened(), budget, &mut told))?;
    Ok(told)
}
