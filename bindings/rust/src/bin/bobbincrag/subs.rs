//! The captions of a file, as the proved reader tells them.
use crate::failure::{fault_text, Failure};
use crate::input::Input;
use crate::notes;
use crate::stderr::say;
use retimer::captions::{self, Caption};
use retimer::faults::Fault;
use retimer::{Fate, Kind, Map};

/// The captions of a text. A faulty one is refused with its place; one without any is said to have none.
pub fn read(kind: Kind, text: &Input) -> Result<Vec<Caption<'_>>, Failure> {
    let reading = captions::read(kind, &text.bytes).map_err(|refused| Failure::refused(format!("{refused} ({})", text.name)))?;
    if let Some(fault) = Fault::of_reading(&reading, &text.bytes) {
        return Err(Failure::refused(fault_text(&fault, text)));
    }
    if let Some(note) = notes::none_found(kind, &text.bytes, &reading.captions) {
        say(format_args!("{}: {note}", text.name));
    }
    Ok(reading.captions)
}

/// A caption, and what becomes of it; one that passes unchanged has no fate.
pub type Fared<'t> = (Caption<'t>, Option<Fate>);

/// The captions of a text with their fates.
pub fn fates<'t>(map: &Map, kind: Kind, text: &'t Input) -> Result<Vec<Fared<'t>>, Failure> {
    let fared = |caption: Caption<'t>| caption.fate(map).map(|fate| (caption, fate)).map_err(Failure::refused);
    read(kind, text)?.into_iter().map(fared).collect()
}
