//! The map of a cut: built from a sheet and a trim list, and stored as JSON.
use crate::{ffi, Head, Refused, MOST_WORK};

/// Numbers that are enough for every map: 1,024 segments, six to each.
pub const MAP_NUMBERS: usize = 6_144;
/// Bytes of the longest input path in a map's JSON.
pub const MOST_PATH: usize = 1_024;
/// Bytes of the longest JSON that is written.
pub const MOST_TEXT: usize = 255_141;

/// Whether `list` is a good trim list, or a blank one, which keeps the whole play: else 2 to 7, or 20 for bytes that are not UTF-8.
pub fn check_list(list: &[u8]) -> Result<(), Refused> {
    Refused::unless_done(ffi::list_check(list))
}

/// Which way cuts are moved to the places where the recording can be cut.
#[derive(Clone, Copy, Debug, PartialEq, Eq)]
pub enum Direction {
    /// Trims are widened, so that no kept frame is lost.
    Outward,
    /// Trims are narrowed, so that no frame is added.
    Inward,
}

/// What a cut keeps: ticks a second, and six numbers a segment, which is a kept stretch.
///
/// ```
/// use retimer::{About, Direction, Map, Sheet};
/// let sheet = Sheet::in_order(30_000, (30_000, 1_001), vec![1_001; 10], [0, 3, 6]).to_bytes()?;
/// let map = Map::new(&sheet, b"Trim(0,2) ++ Trim(6,8)", Direction::Outward)?;
/// assert_eq!((map.timescale(), map.numbers()), (30_000, &[0, 3, 0, 3, 0, 3_003, 6, 10, 6_006, 4, 3_003, 4_004][..]));
/// assert_eq!(map.segments().map(|s| s.duration).sum::<u64>(), 7_007);
/// // as the cutter stores it, and back
/// let about = About::of_sheet(&sheet, "play.mp4").unwrap();
/// let json = map.to_json(&about)?;
/// assert!(json.starts_with("{\n  \"video_timescale\": 30000,\n"));
/// assert_eq!(Map::from_json(json.as_bytes())?, (map, about));
/// # Ok::<(), retimer::Refused>(())
/// ```
#[derive(Clone, Debug, PartialEq, Eq, Hash)]
pub struct Map {
    /// Ticks a second.
    pub(crate) timescale: u32,
    /// Six numbers a segment: start frame, end frame, source start, frame count, output start, duration.
    pub(crate) numbers: Vec<u64>,
}

/// A kept stretch.
#[derive(Clone, Copy, Debug, Default, PartialEq, Eq, Hash)]
pub struct Segment {
    /// Its first frame.
    pub start_frame: u64,
    /// The frame behind its last.
    pub end_frame: u64,
    /// Where it starts in the recording, in ticks.
    pub source: u64,
    /// How many frames it has.
    pub frames: u64,
    /// Where it starts in the cut, in ticks.
    pub output: u64,
    /// How long it is, in ticks.
    pub duration: u64,
}

/// What the cutter stores beside a map.
#[derive(Clone, Debug, PartialEq, Eq)]
pub struct About {
    /// The sheet's frame rate, a fraction.
    pub rate: (u32, u32),
    /// The sheet's frame count.
    pub frames: u32,
    /// The input path.
    pub input: String,
}

impl About {
    /// What a sheet's head says, and a path; nothing where the sheet has no block.
    pub fn of_sheet(sheet: &[u8], input: &str) -> Option<About> {
        Head::of(sheet).map(|head| About { rate: head.rate, frames: head.frames, input: input.to_string() })
    }
}

impl Map {
    /// The map of a frame sheet and a trim list: 11 to 14, 25 and 26 for the sheet, 2 to 7 and 20 for the list, 8 to 10 and 26 for its trims in this
    /// sheet. It lends the work bytes by itself.
    pub fn new(sheet: &[u8], list: &[u8], direction: Direction) -> Result<Map, Refused> {
        let (mut work, mut numbers, mut timescale, mut count) = (vec![0; MOST_WORK], vec![0; MAP_NUMBERS], 0, 0);
        let direction = match direction {
            Direction::Outward => 0,
            Direction::Inward => 1,
        };
        Refused::unless_done(ffi::map_of(sheet, list, direction, &mut work, &mut numbers, &mut timescale, &mut count))?;
        numbers.truncate(6 * count as usize);
        Ok(Map { timescale, numbers })
    }

    /// A map of stretches that are worked out elsewhere. Any are taken: what is asked through a map outside the limits is refused with 15.
    ///
    /// ```
    /// use retimer::{Map, Segment};
    /// let kept = Segment { start_frame: 6, end_frame: 10, source: 6_006, frames: 4, output: 0, duration: 4_004 };
    /// let map = Map::from_segments(30_000, &[kept]);
    /// assert_eq!((map.timescale(), map.numbers()), (30_000, &[6, 10, 6_006, 4, 0, 4_004][..]));
    /// assert_eq!(map.segments().collect::<Vec<_>>(), [kept]);
    /// ```
    pub fn from_segments(timescale: u32, segments: &[Segment]) -> Map {
        let six = |s: &Segment| [s.start_frame, s.end_frame, s.source, s.frames, s.output, s.duration];
        Map { timescale, numbers: segments.iter().flat_map(six).collect() }
    }

    /// A map of flat numbers, as the C functions have it; any are taken.
    pub fn from_numbers(timescale: u32, numbers: Vec<u64>) -> Map {
        Map { timescale, numbers }
    }

    /// Ticks a second.
    pub fn timescale(&self) -> u32 {
        self.timescale
    }

    /// Six numbers a segment: start frame, end frame, source start, frame count, output start, duration.
    pub fn numbers(&self) -> &[u64] {
        &self.numbers
    }

    /// The kept stretches, in the order of the trim list.
    pub fn segments(&self) -> impl DoubleEndedIterator<Item = Segment> + ExactSizeIterator + '_ {
        self.numbers.chunks_exact(6).map(|n| Segment { start_frame: n[0], end_frame: n[1], source: n[2], frames: n[3], output: n[4], duration: n[5] })
    }

    /// The JSON text as the cutter's `to_json` writes it, line end included: 15 for a map outside the limits, 16 for a path of more than 1,024 bytes.
    pub fn to_json(&self, about: &About) -> Result<String, Refused> {
        let mut text = vec![0; MOST_TEXT];
        let written = ffi::map_write(&self.numbers, self.timescale, about.rate, about.input.as_bytes(), about.frames, &mut text)?;
        text.truncate(written);
        String::from_utf8(text).map_err(|_| Refused(20))
    }

    /// A map from its JSON text: 23 for a text outside the rules of docs/GUIDE.md, 15 for a map outside the limits.
    pub fn from_json(text: &[u8]) -> Result<(Map, About), Refused> {
        let (mut numbers, mut path) = (vec![0; MAP_NUMBERS], vec![0; MOST_PATH]);
        let (mut timescale, mut rate, mut frames) = (0, (0, 0), 0);
        let (count, length) = ffi::map_read(text, &mut numbers, &mut path, [&mut timescale, &mut rate.0, &mut rate.1, &mut frames])?;
        numbers.truncate(count);
        path.truncate(length);
        let input = String::from_utf8(path).map_err(|_| Refused(23))?;
        Ok((Map { timescale, numbers }, About { rate, frames, input }))
    }
}
