//! `bobbincrag check`: every fault of a sheet, a list and captions, with its place.
use crate::args::Args;
use crate::cut::direction;
use crate::failure::Failure;
use crate::input::{self, Input};
use crate::notes;
use crate::output;
use crate::progress::Progress;
use retimer::captions;
use retimer::faults::{self, Fault};
use retimer::Kind;
use std::ffi::OsStr;

/// Faults of one number in one file that are printed, at most.
const MOST: usize = 50;

pub fn run(args: &Args) -> Result<(), Failure> {
    input::once(args)?;
    let subs: Vec<&OsStr> = args.all("--subs").collect();
    if !args.has("--sheet") && !args.has("--list") && subs.is_empty() {
        return Err(args.usage("name what to check: --sheet, --list, --subs"));
    }
    let kinds = subs.iter().map(|s| input::kind_of(args, s)).collect::<Result<Vec<Kind>, _>>()?;
    let read = |name: &'static str, most| args.one(name).map(|n| input::read(n, most)).transpose();
    let (sheet, list) = (read("--sheet", input::MOST_SHEET)?, read("--list", input::MOST_LIST)?);
    let texts = subs.iter().map(|s| input::captions(args, s)).collect::<Result<Vec<Input>, _>>()?;

    let mut page = Page::default();
    if let Some(sheet) = &sheet {
        page.add(&sheet.name, faults::in_sheet(&sheet.bytes));
    }
    if let Some(list) = &list {
        let mut found = of_list(args, &list.bytes, sheet.as_ref());
        page.more = found.len() > faults::MOST_IN_CUT && found[0].refused.number() >= 8 && found[0].refused.number() != 20;
        found.truncate(if page.more { faults::MOST_IN_CUT } else { found.len() });
        page.add_of(list, found);
    } else if let Some(sheet) = &sheet {
        // that the whole recording can be kept is asked where there is no list
        let found = if page.faults == 0 { faults::in_cut(&sheet.bytes, b"", direction(args)) } else { Vec::new() };
        page.note(&sheet.name, found);
    }
    for (text, kind) in texts.iter().zip(kinds) {
        let progress = Progress::new(format!("checking {}", text.name), text.bytes.len());
        let found = faults::in_captions(kind, &text.bytes, &mut |at| progress.at(at));
        drop(progress);
        let sound = found.faults.is_empty();
        page.add_of(text, found.faults);
        if found.more {
            page.text += &format!("the search ended here: {} may have more faults\n", text.name);
            page.more = true;
        }
        if sound {
            page.remarks(&text.name, kind, &text.bytes);
        }
    }
    page.end()
}

/// The list's own faults; where it has none and the sheet is sound, those of its trims there.
fn of_list(args: &Args, list: &[u8], sheet: Option<&Input>) -> Vec<Fault> {
    let found = faults::in_list(list);
    match sheet {
        Some(sheet) if found.is_empty() && retimer::check_sheet(&sheet.bytes).is_ok() => faults::in_cut_up_to(&sheet.bytes, list, direction(args), faults::MOST_IN_CUT + 1),
        _ => found,
    }
}

/// What is printed.
#[derive(Default)]
struct Page {
    text: String,
    faults: usize,
    files: usize,
    faulty: usize,
    /// Whether there may be more faults of a list than were looked for.
    more: bool,
}

impl Page {
    /// A text's faults, and what it looks like where it is not UTF-8.
    fn add_of(&mut self, text: &Input, found: Vec<Fault>) {
        let bytes = found.iter().any(|f| f.refused.number() == 20);
        self.add(&text.name, found);
        if bytes {
            self.text += &format!("{}\n", input::not_utf8(text));
        }
    }

    /// A file's faults.
    fn add(&mut self, name: &str, found: Vec<Fault>) {
        self.files += 1;
        if found.is_empty() {
            self.text += &format!("{name}: sound\n");
        }
        self.note(name, found);
    }

    /// Faults of a file that is told already.
    fn note(&mut self, name: &str, found: Vec<Fault>) {
        let mut told: Vec<(u32, usize)> = Vec::new();
        for fault in &found {
            let number = fault.refused.number();
            let k = told.iter().position(|t| t.0 == number).unwrap_or_else(|| {
                told.push((number, 0));
                told.len() - 1
            });
            told[k].1 += 1;
            if told[k].1 <= MOST {
                self.text += &format!("{} ({name}, {})\n", fault.refused, fault.place);
            }
        }
        for (number, count) in told.into_iter().filter(|t| t.1 > MOST) {
            self.text += &format!("and {} more of {number} in {name}\n", count - MOST);
        }
        self.faults += found.len();
        self.faulty += usize::from(!found.is_empty());
    }

    /// What is to be said of captions that can be retimed.
    fn remarks(&mut self, name: &str, kind: Kind, text: &[u8]) {
        let read = captions::read(kind, text).map_or(Vec::new(), |r| r.captions);
        if let Some(note) = notes::none_found(kind, text, &read) {
            self.text += &format!("note: {note} ({name})\n");
        }
        let inside = notes::arrows_inside(kind, &read);
        for (line, words) in inside.iter().take(MOST) {
            self.text += &format!("note: {} ({name}, line {line}: \"{words}\")\n", notes::INSIDE);
        }
        if inside.len() > MOST {
            self.text += &format!("and {} more such lines in {name}\n", inside.len() - MOST);
        }
    }

    fn end(mut self) -> Result<(), Failure> {
        let files = if self.files == 1 { "1 file".to_string() } else { format!("{} files", self.files) };
        let faults = if self.faults == 1 { "1 fault".to_string() } else { format!("{} faults", self.faults) } + if self.more { " or more" } else { "" };
        self.text += &match self.faults {
            0 => format!("{files} checked, all sound\n"),
            _ => format!("{files} checked, {faults} in {}\n", self.faulty),
        };
        output::print(self.text.as_bytes())?;
        if self.faults == 0 {
            Ok(())
        } else {
            Err(Failure::Told)
        }
    }
}
