//! Why a film gives no sheet, or no list for ffmpeg, and what to do.
use std::fmt;

/// Why a film gives no sheet, or no list for ffmpeg. It is written as a sentence that says what to do.
#[derive(Clone, Debug, PartialEq, Eq)]
#[non_exhaustive]
pub enum Fault {
    /// ffprobe's output is no JSON from this byte on.
    NotJson(usize),
    /// It tells of no video stream.
    NoStream,
    /// The time base is not 1/T, with T from 1 to 1,000,000,000.
    TimeBase(String),
    /// No frame is shown.
    NoFrames,
    /// More frames than a sheet holds.
    TooManyFrames(usize),
    /// A packet, counted from 1, has no time at which it is shown.
    NoTime(usize),
    /// Two packets are shown at one time.
    SameTime {
        /// The one, counted from 1.
        first: usize,
        /// The other.
        second: usize,
        /// When, in ticks.
        ticks: i64,
        /// Ticks a second.
        timescale: u32,
    },
    /// How long the last frame is shown can't be told.
    NoLength,
    /// A packet, counted from 1, has no time at which it is decoded.
    NoDecodeTime(usize),
    /// A stretch of the map, counted from 1, is not where the film has its frames.
    NotItsMap(usize),
}

impl fmt::Display for Fault {
    fn fmt(&self, f: &mut fmt::Formatter<'_>) -> fmt::Result {
        match self {
            Fault::NotJson(at) => write!(f, "it is not what ffprobe prints with -of json: it can't be read at byte {at}"),
            Fault::NoStream => write!(f, "no video stream is told of"),
            Fault::TimeBase(base) => {
                write!(f, "the time base is {base:?}, not 1/T: store the film anew, `ffmpeg -i FILM -c copy NEW.mkv`, and take that")
            }
            Fault::NoFrames => write!(f, "no frame is shown"),
            Fault::TooManyFrames(n) => write!(f, "it has {n} frames, and a sheet has at most 1,048,576: cut the film in two"),
            Fault::NoTime(number) => {
                write!(f, "packet {number} has no time at which it is shown (pts): store the film anew, `ffmpeg -fflags +genpts -i FILM -c copy NEW.mkv`, or a bare stream with `mkvmerge -o NEW.mkv FILM`, and take that")
            }
            Fault::SameTime { first, second, ticks, timescale } => {
                let at = super::seconds(*ticks, *timescale);
                write!(f, "packets {first} and {second} are shown at one time, {at} s: encode the film anew, `ffmpeg -i FILM -fps_mode cfr NEW.mp4`, and take that")
            }
            Fault::NoLength => write!(f, "how long its last frame is shown can't be told: store the film anew, `ffmpeg -i FILM -c copy NEW.mp4`, and take that"),
            Fault::NoDecodeTime(number) => {
                write!(f, "packet {number} has no time at which it is decoded (dts): ask ffprobe for pts, dts, duration and flags, as docs/SHEET.md says")
            }
            Fault::NotItsMap(stretch) => {
                write!(f, "stretch {stretch} of the map does not begin and end where this film has its frames: take the sheet of this film, made without --open-gop")
            }
        }
    }
}

impl std::error::Error for Fault {}
