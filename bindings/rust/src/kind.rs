//! The kinds of captions, their times, and conversions between these and ticks of the recording.
use crate::{ffi, Refused};
use std::fmt;
use std::path::Path;
use std::str::FromStr;

/// The caption format that a time or a text belongs to.
#[derive(Clone, Copy, Debug, PartialEq, Eq, Hash)]
pub enum Kind {
    /// ASS: hundredths of a second.
    Ass,
    /// SRT: thousandths of a second.
    Srt,
    /// WebVTT: thousandths of a second.
    Vtt,
}

impl Kind {
    /// All three.
    pub const ALL: [Kind; 3] = [Kind::Ass, Kind::Srt, Kind::Vtt];

    /// Its number in the C functions.
    pub fn number(self) -> u32 {
        match self {
            Kind::Ass => 0,
            Kind::Srt => 1,
            Kind::Vtt => 2,
        }
    }

    /// Its name: `ass`, `srt` or `vtt`.
    pub fn name(self) -> &'static str {
        match self {
            Kind::Ass => "ass",
            Kind::Srt => "srt",
            Kind::Vtt => "vtt",
        }
    }

    /// The kind of a name.
    ///
    /// ```
    /// use retimer::Kind;
    /// assert_eq!(Kind::named("vtt"), Some(Kind::Vtt));
    /// assert_eq!(Kind::named("sub"), None);
    /// ```
    pub fn named(name: &str) -> Option<Kind> {
        Kind::ALL.into_iter().find(|k| k.name() == name)
    }

    /// The kind that a file's ending tells, capitals or not; `.ssa` is ASS too.
    ///
    /// ```
    /// use retimer::Kind;
    /// assert_eq!(Kind::of_path("act2/play.SRT".as_ref()), Some(Kind::Srt));
    /// assert_eq!(Kind::of_path("play.txt".as_ref()), None);
    /// ```
    pub fn of_path(path: &Path) -> Option<Kind> {
        match path.extension()?.to_str()?.to_ascii_lowercase().as_str() {
            "ssa" => Some(Kind::Ass),
            ending => Kind::named(ending),
        }
    }

    /// Units a second: 100, or 1000.
    pub fn units(self) -> u64 {
        match self {
            Kind::Ass => 100,
            Kind::Srt | Kind::Vtt => 1000,
        }
    }

    /// A time as it stands in captions of the kind.
    ///
    /// ```
    /// use retimer::Kind;
    /// assert_eq!(Kind::Ass.time(359_999), "0:59:59.99");
    /// assert_eq!(Kind::Srt.time(3_723_004), "01:02:03,004");
    /// assert_eq!(Kind::Vtt.time(3_723_004), "01:02:03.004");
    /// ```
    pub fn time(self, units: u64) -> String {
        self.time_marked(units, if self == Kind::Srt { ',' } else { '.' })
    }

    /// The same, with the mark before the fraction: SRT has a comma or a point.
    pub fn time_marked(self, units: u64, mark: char) -> String {
        let (u, seconds) = (self.units(), units / self.units());
        let (h, m, s, part) = (seconds / 3600, seconds / 60 % 60, seconds % 60, units % u);
        match self {
            Kind::Ass => format!("{h}:{m:02}:{s:02}{mark}{part:02}"),
            Kind::Srt | Kind::Vtt => format!("{h:02}:{m:02}:{s:02}{mark}{part:03}"),
        }
    }
}

impl fmt::Display for Kind {
    fn fmt(&self, f: &mut fmt::Formatter<'_>) -> fmt::Result {
        f.write_str(self.name())
    }
}

/// A name that is no kind's.
#[derive(Clone, Copy, Debug, PartialEq, Eq)]
pub struct UnknownKind;

impl fmt::Display for UnknownKind {
    fn fmt(&self, f: &mut fmt::Formatter<'_>) -> fmt::Result {
        f.write_str("captions are ass, srt or vtt")
    }
}

impl std::error::Error for UnknownKind {}

impl FromStr for Kind {
    type Err = UnknownKind;

    /// By its name.
    ///
    /// ```
    /// use retimer::{Kind, UnknownKind};
    /// assert_eq!(("srt".parse(), "sub".parse::<Kind>()), (Ok(Kind::Srt), Err(UnknownKind)));
    /// assert_eq!(Kind::Srt.to_string(), "srt");
    /// ```
    fn from_str(name: &str) -> Result<Kind, UnknownKind> {
        Kind::named(name).ok_or(UnknownKind)
    }
}

/// Units to ticks, rounded down: 15 for the ticks a second, 16 for units above 2^36.
///
/// ```
/// use retimer::{units_to_ticks, Kind};
/// assert_eq!(units_to_ticks(21, 30_000, Kind::Ass), Ok(6_300));
/// ```
pub fn units_to_ticks(units: u64, timescale: u32, kind: Kind) -> Result<u64, Refused> {
    Refused::unless_done(ffi::units_number(units, timescale, kind.number()))?;
    Ok(ffi::units_to_ticks(units, timescale, kind.number()))
}

/// Ticks to units, rounded down, as a start is written: 15 for the ticks a second, 16 for ticks above 2^53.
pub fn ticks_to_units_floor(ticks: u64, timescale: u32, kind: Kind) -> Result<u64, Refused> {
    Refused::unless_done(ffi::ticks_number(ticks, timescale, kind.number()))?;
    Ok(ffi::ticks_to_units_floor(ticks, timescale, kind.number()))
}

/// Ticks to units, rounded up, as an end is written: 15 for the ticks a second, 16 for ticks above 2^53.
pub fn ticks_to_units_ceil(ticks: u64, timescale: u32, kind: Kind) -> Result<u64, Refused> {
    Refused::unless_done(ffi::ticks_number(ticks, timescale, kind.number()))?;
    Ok(ffi::ticks_to_units_ceil(ticks, timescale, kind.number()))
}
