//! Every fault of a sheet, a trim list, a cut or a caption text, each with its place.
//!
//! The numbers are those of the proved functions: what they refuse is set right in a copy, or left out, and they are asked again. The line of a caption text's fault is theirs too; where a fault of
//! a sheet or a list stands is found here, in Rust that is not proved.
mod captions;
mod cut;
mod list;
mod sheet;

pub use captions::{in_captions, InText};
pub use cut::{in_cut, in_cut_up_to, MOST_IN_CUT};
pub use list::in_list;
pub use sheet::in_sheet;

use crate::captions::{hint, Reading};
use crate::{Refused, Stopped};

/// A fault.
#[derive(Clone, Debug, PartialEq, Eq)]
pub struct Fault {
    /// The number and its sentence.
    pub refused: Refused,
    /// Where it is, and what stands there.
    pub place: String,
}

impl Fault {
    fn new(number: u32, place: impl Into<String>) -> Fault {
        Fault { refused: Refused(number), place: place.into() }
    }

    /// The fault at which the reading of a text ends; nothing of a sound one.
    pub fn of_reading(reading: &Reading<'_>, text: &[u8]) -> Option<Fault> {
        let (refused, _) = reading.fault?;
        Some(Fault { refused, place: reading.place()?.to_string() + hint(refused.0, text) })
    }

    /// The fault at which a text stopped; nothing where it is no fault of the text.
    pub fn of_text(stopped: &Stopped, text: &[u8]) -> Option<Fault> {
        let place = stopped.place.as_ref()?;
        Some(Fault { refused: stopped.refused, place: place.to_string() + hint(stopped.refused.0, text) })
    }
}

impl std::fmt::Display for Fault {
    fn fmt(&self, f: &mut std::fmt::Formatter<'_>) -> std::fmt::Result {
        write!(f, "{} ({})", self.refused, self.place)
    }
}
