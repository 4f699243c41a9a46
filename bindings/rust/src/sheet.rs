//! Frame sheets: written from numbers, read, and checked. docs/SHEET.md gives their bytes.
use crate::{ffi, Refused};

/// Work bytes that are enough for every sheet.
pub const MOST_WORK: usize = 131_072;
/// Frames of the longest sheet.
pub const MOST_FRAMES: usize = 1_048_576;
/// Bytes of a block.
pub(crate) const BLOCK: usize = 512;

/// Whether `sheet` is a sound frame sheet: else 11 length, 12 block, 13 head, 14 record, 25 a sample named twice, 26 too many ticks. It lends the
/// work bytes by itself.
pub fn check_sheet(sheet: &[u8]) -> Result<(), Refused> {
    Refused::unless_done(ffi::sheet_check(sheet, &mut vec![0; MOST_WORK]))
}

/// How a sheet stores durations.
#[derive(Clone, Copy, Debug, PartialEq, Eq)]
pub enum Layout {
    /// The first: 32 bits each, at most 1,000,000 ticks a second.
    Short,
    /// The second: 64 bits each, at most 1,000,000,000 ticks a second.
    Long,
}

impl Layout {
    /// Records to a block.
    pub(crate) fn per_block(self) -> usize {
        match self {
            Layout::Short => 63,
            Layout::Long => 42,
        }
    }

    /// Words to a record.
    pub(crate) fn words(self) -> usize {
        match self {
            Layout::Short => 2,
            Layout::Long => 3,
        }
    }

    /// The first word of record i, counted through all blocks.
    pub(crate) fn place(self, i: usize) -> usize {
        128 * (1 + i / self.per_block()) + 1 + self.words() * (i % self.per_block())
    }

    /// Bytes of a sheet of n frames.
    pub(crate) fn bytes(self, n: usize) -> usize {
        BLOCK * (1 + n.div_ceil(self.per_block()))
    }

    /// The largest T.
    pub(crate) fn most_timescale(self) -> u32 {
        match self {
            Layout::Short => 1_000_000,
            Layout::Long => 1_000_000_000,
        }
    }
}

/// A frame, in the order in which frames are shown.
#[derive(Clone, Copy, Debug, PartialEq, Eq)]
pub struct Frame {
    /// Its place in the order in which pictures are stored, from 0.
    pub decode: u32,
    /// Whether a cut can begin there.
    pub sync: bool,
}

/// What a frame sheet says of a recording.
///
/// The two lists count frames in different orders: `frames` as they are shown, `durations` as they are stored. A picture that is shown
/// third and stored first lasts `durations[frames[2].decode]`, which is `durations[0]`.
///
/// ```
/// use retimer::{check_sheet, Frame, Layout, Sheet};
/// // four pictures, stored in the order 0, 2, 1, 3
/// let frames = [0, 2, 1, 3].map(|decode| Frame { decode, sync: decode == 0 }).to_vec();
/// let sheet = Sheet { timescale: 24_000, rate: (24_000, 1_001), frames, durations: vec![1_001; 4] };
/// let bytes = sheet.to_bytes()?;
/// assert_eq!((bytes.len(), check_sheet(&bytes)), (1_024, Ok(())));
/// assert_eq!(Sheet::from_bytes(&bytes), Ok(sheet.clone()));
/// // a slide that stands for ten minutes, in billionths of a second, needs the second layout
/// let slides = Sheet { timescale: 1_000_000_000, durations: vec![600_000_000_000; 4], ..sheet };
/// assert_eq!(slides.layout(), Layout::Long);
/// assert_eq!(Sheet::from_bytes(&slides.to_bytes()?), Ok(slides));
/// # Ok::<(), retimer::Refused>(())
/// ```
#[derive(Clone, Debug, PartialEq, Eq)]
pub struct Sheet {
    /// Ticks a second; of an MP4 file the video track's timescale.
    pub timescale: u32,
    /// The frame rate, a fraction. It is handed on to a map's JSON and read by nothing else.
    pub rate: (u32, u32),
    /// The frames as they are shown.
    pub frames: Vec<Frame>,
    /// How many ticks each picture lasts, as they are stored.
    pub durations: Vec<u64>,
}

impl Sheet {
    /// A recording whose pictures are stored in the order in which they are shown; a cut can begin at the frames of `sync`.
    ///
    /// ```
    /// // the example of docs/SHEET.md
    /// let sheet = retimer::Sheet::in_order(30_000, (30_000, 1_001), vec![1_001; 10], [0, 3, 6]);
    /// assert_eq!(sheet.to_bytes()?[1020..], [0x48, 0x27, 0x00, 0x80]);
    /// # Ok::<(), retimer::Refused>(())
    /// ```
    pub fn in_order(timescale: u32, rate: (u32, u32), durations: Vec<u64>, sync: impl IntoIterator<Item = u32>) -> Sheet {
        let mut frames: Vec<Frame> = (0..durations.len() as u32).map(|decode| Frame { decode, sync: false }).collect();
        for k in sync {
            if let Some(frame) = frames.get_mut(k as usize) {
                frame.sync = true;
            }
        }
        Sheet { timescale, rate, frames, durations }
    }

    /// The layout that the numbers need: the first where it holds them.
    pub fn layout(&self) -> Layout {
        let short = self.timescale <= Layout::Short.most_timescale() && self.durations.iter().all(|d| *d <= u32::MAX.into());
        if short {
            Layout::Short
        } else {
            Layout::Long
        }
    }

    /// The bytes, in the layout that they need; refused where they would be no sound sheet (13, 14, 25, 26, and 16 where there are not as many
    /// durations as frames).
    pub fn to_bytes(&self) -> Result<Vec<u8>, Refused> {
        self.to_bytes_in(self.layout())
    }

    /// The bytes in a layout; 16 also where it can't hold a duration.
    pub fn to_bytes_in(&self, layout: Layout) -> Result<Vec<u8>, Refused> {
        let n = self.frames.len();
        if n > MOST_FRAMES {
            return Err(Refused(13));
        }
        let narrow = layout == Layout::Short && self.durations.iter().any(|d| *d > u32::MAX.into());
        if self.durations.len() != n || narrow {
            return Err(Refused(16));
        }
        if self.frames.iter().any(|f| f.decode >> 31 == 1) {
            return Err(Refused(14));
        }
        let mut words = vec![0u32; layout.bytes(n) / 4];
        words[1..6].copy_from_slice(&[self.timescale, n as u32, self.rate.0, self.rate.1, (layout == Layout::Long).into()]);
        for (i, (frame, duration)) in self.frames.iter().zip(&self.durations).enumerate() {
            let at = layout.place(i);
            words[at] = frame.decode | u32::from(frame.sync) << 31;
            words[at + 1] = *duration as u32;
            if layout == Layout::Long {
                words[at + 2] = (*duration >> 32) as u32;
            }
        }
        words.chunks_exact_mut(128).enumerate().for_each(|(b, block)| seal(b as u32, block));
        let bytes: Vec<u8> = words.iter().flat_map(|w| w.to_le_bytes()).collect();
        check_sheet(&bytes)?;
        Ok(bytes)
    }

    /// What a sound sheet says; refused as [`check_sheet`] refuses it.
    pub fn from_bytes(bytes: &[u8]) -> Result<Sheet, Refused> {
        check_sheet(bytes)?;
        let head = Head::of(bytes).ok_or(Refused(11))?;
        let records = (0..head.frames as usize).map(|i| record(bytes, head.layout, i));
        let (frames, durations) = records.unzip();
        Ok(Sheet { timescale: head.timescale, rate: head.rate, frames, durations })
    }
}

/// A block's number and its sum.
fn seal(number: u32, block: &mut [u32]) {
    block[0] = number;
    block[127] = block[..127].iter().fold(0, |sum, w| sum.wrapping_add(*w));
}

/// Word k of a sheet.
pub(crate) fn word(bytes: &[u8], k: usize) -> u32 {
    u32::from_le_bytes([bytes[4 * k], bytes[4 * k + 1], bytes[4 * k + 2], bytes[4 * k + 3]])
}

/// Record i: display frame i, and the duration of the sample with decode index i.
pub(crate) fn record(bytes: &[u8], layout: Layout, i: usize) -> (Frame, u64) {
    let at = layout.place(i);
    let (first, low) = (word(bytes, at), word(bytes, at + 1));
    let high = if layout == Layout::Long { word(bytes, at + 2) } else { 0 };
    (Frame { decode: first & 0x7fff_ffff, sync: first >> 31 == 1 }, u64::from(high) << 32 | u64::from(low))
}

/// What block 0 of a sheet says.
#[derive(Clone, Copy, Debug, PartialEq, Eq)]
pub struct Head {
    /// Ticks a second.
    pub timescale: u32,
    /// How many frames there are.
    pub frames: u32,
    /// The frame rate, a fraction.
    pub rate: (u32, u32),
    /// The layout.
    pub layout: Layout,
}

impl Head {
    /// The head of a sheet that has one block or more, sound or not.
    pub fn of(sheet: &[u8]) -> Option<Head> {
        if sheet.len() < BLOCK {
            return None;
        }
        let layout = if word(sheet, 5) == 1 { Layout::Long } else { Layout::Short };
        Some(Head { timescale: word(sheet, 1), frames: word(sheet, 2), rate: (word(sheet, 3), word(sheet, 4)), layout })
    }
}
