//! Bobbincrag, a caption retimer whose promise is a theorem, as a crate for tools that cut.
//!
//! A recording is told by a frame sheet, a cut by a trim list. Both give a [`Map`], which is what the cut keeps; captions in ASS, SRT or WebVTT are retimed
//! through it, as a whole ([`retime`]) or in pieces ([`Session`]). What a function here promises is what is proved of the one that it calls in the static
//! library: it returns on every input, and its answer is that of the definitions that docs/PROOFS.md leads to.
//!
//! ```
//! use retimer::{retime, Direction, Kind, Map, Sheet};
//! // ten frames of 1,001 ticks, 30,000 a second; a cut can begin at the frames 0, 3 and 6
//! let sheet = Sheet::in_order(30_000, (30_000, 1_001), vec![1_001; 10], [0, 3, 6]).to_bytes()?;
//! let map = Map::new(&sheet, b"Trim(0,2) ++ Trim(6,8)", Direction::Outward)?;
//! let retimed = retime(Kind::Srt, &map, b"1\n00:00:00,210 --> 00:00:00,250\nA line\n")?;
//! assert_eq!(retimed.text, b"1\n00:00:00,109 --> 00:00:00,150\nA line\n");
//! assert_eq!(retimed.counts.to_string(), "1 shifted, 0 clipped, 0 dropped, 0 passed");
//! # Ok::<(), Box<dyn std::error::Error>>(())
//! ```
//!
//! | To | take | proved or tested |
//! |---|---|---|
//! | write a frame sheet from numbers, or read one | [`Sheet`] | its check is proved; writing and reading are tested |
//! | get the frame sheet of a film, or the list by which ffmpeg cuts it | [`film`] | tested, with real films |
//! | check a sheet or a list | [`check_sheet`], [`check_list`]; with places [`faults`] | the numbers are proved; places are tested |
//! | build a map, store it as JSON, read it back | [`Map`] | proved |
//! | retime captions | [`retime`], [`Session`] | proved |
//! | delay captions before they are retimed | [`Map::delayed`] | the moved map is tested; what becomes of captions through it is proved |
//! | ask what becomes of a caption, and why | [`why`], [`rough`] | proved |
//! | ask how captions would fare | [`census`], [`best_delay`] | proved |
//! | read captions: lines, times, words, and where a text is at fault | [`captions`], [`faults`] | lines, times, the words' place and the first fault are proved; faults behind it, and words without tags, are tested |
//! | read captions in other encodings | [`Encoding`] | tested |
//! | draw what became of captions, as SVG | [`picture`] | tested |
//!
//! A refusal is a [`Refused`]: its number is that of docs/NUMBERS.md, its sentence that of docs/GUIDE.md. A fault of a caption text is a [`Stopped`], which adds the line and
//! the words. The command `bobbincrag` in this package does all of this from files.
#![deny(unsafe_code)]
#![warn(missing_docs)]

pub mod captions;
mod delayed;
mod encoding;
pub mod faults;
#[allow(unsafe_code)]
mod ffi;
pub mod film;
mod kind;
mod map;
pub mod picture;
mod questions;
mod refused;
mod session;
mod sheet;

pub use delayed::{ends_at_zero, Undelayed};
pub use encoding::Encoding;
pub use kind::{ticks_to_units_ceil, ticks_to_units_floor, units_to_ticks, Kind, UnknownKind};
pub use map::{check_list, About, Direction, Map, Segment, MAP_NUMBERS, MOST_PATH, MOST_TEXT};
pub use questions::{best_delay, census, rough, why, BestDelay, Cause, Fate, Judgement, Starts};
pub use refused::{Refused, Warning};
pub use session::{retime, Counts, Retimed, Session, Stopped, Written, LEAST_OUTPUT, LEAST_PLACES, MOST_PIECE, SESSION_BYTES};
pub use sheet::{check_sheet, Frame, Head, Layout, Sheet, MOST_FRAMES, MOST_WORK};

/// The C functions over slices of any length, for callers that pass any number as a kind, and lend output and places themselves.
pub mod raw {
    pub use crate::ffi::*;
}
