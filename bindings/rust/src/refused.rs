//! Refusals and warnings: their numbers, and the sentences that docs/GUIDE.md has for them.
use std::fmt;

/// A refusal: its number, and the sentence of docs/GUIDE.md that says it.
///
/// ```
/// use retimer::{check_list, Refused};
/// let refused = check_list(b"Trim(5,1)").unwrap_err();
/// assert_eq!(refused, Refused::BACKWARD);
/// assert_eq!(refused.number(), 4);
/// assert_eq!(refused.sentence(), "a is greater than b");
/// assert_eq!(refused.to_string(), "refused 4: a is greater than b");
/// ```
#[derive(Clone, Copy, Debug, PartialEq, Eq, Hash)]
pub struct Refused(
    /// The number, as docs/NUMBERS.md has it.
    pub u32,
);

impl Refused {
    /// The number.
    pub fn number(self) -> u32 {
        self.0
    }

    /// What the number says.
    pub fn sentence(self) -> &'static str {
        said(&REFUSALS, self.0)
    }

    /// Nothing for 0, else the refusal.
    pub(crate) fn unless_done(number: u32) -> Result<(), Refused> {
        match number {
            0 => Ok(()),
            n => Err(Refused(n)),
        }
    }
}

/// The numbers by the names of include/retimer.h.
macro_rules! named {
    ($($name:ident = $number:literal;)*) => {
        impl Refused {
            $(#[doc = concat!("Number ", $number, ".")] pub const $name: Refused = Refused($number);)*
        }

        #[cfg(test)]
        const NAMES: &[(&str, u32)] = &[$((stringify!($name), $number)),*];
    };
}

named! {
    SHAPE = 2;
    NOT_A_NUMBER = 3;
    BACKWARD = 4;
    LAST_FRAME = 5;
    CROSSING = 6;
    LIST_TOO_LONG = 7;
    OVERLAP = 8;
    TURNED_OVER = 9;
    PAST_THE_END = 10;
    SHEET_LENGTH = 11;
    SHEET_BLOCK = 12;
    SHEET_HEAD = 13;
    SHEET_RECORD = 14;
    BAD_MAP = 15;
    BAD_ARGUMENT = 16;
    FOREIGN_SESSION = 17;
    ENDED = 18;
    LONG_LINE = 19;
    NOT_UTF8 = 20;
    LONG_BLOCK = 21;
    BAD_TIME = 22;
    NO_MAP_TEXT = 23;
    FIRST_LINE = 24;
    NAMED_TWICE = 25;
    TOO_MANY_TICKS = 26;
    NO_PARKED_SESSION = 27;
    OUT_OF_ORDER = 28;
    NO_TRIES = 29;
}

impl fmt::Display for Refused {
    fn fmt(&self, f: &mut fmt::Formatter<'_>) -> fmt::Result {
        write!(f, "refused {}: {}", self.0, self.sentence())
    }
}

impl std::error::Error for Refused {}

/// A warning about a caption: its number, 1 to 5, and its line, counted from 1 (in SRT and WebVTT the line of the times).
///
/// ```
/// use retimer::Warning;
/// let warning = Warning { number: Warning::FEW_FIELDS, line: 14 };
/// assert_eq!(warning.to_string(), "line 14: warning 2: an ASS caption passed unchanged: it has fewer fields than the Format line");
/// ```
#[derive(Clone, Copy, Debug, PartialEq, Eq, Hash)]
pub struct Warning {
    /// Which: 1 to 5.
    pub number: u32,
    /// The line, counted from 1.
    pub line: u64,
}

impl Warning {
    /// An ASS caption passes: Start or End is unknown.
    pub const UNKNOWN_COLUMN: u32 = 1;
    /// An ASS caption passes: it has fewer fields than columns.
    pub const FEW_FIELDS: u32 = 2;
    /// The start was cut, and the caption has a tag that counts from its start.
    pub const RELATIVE_TAG: u32 = 3;
    /// The end was cut, and a segment later in the list has a part of the caption.
    pub const LOST_PART: u32 = 4;
    /// A WebVTT caption has times inside its lines.
    pub const TIMES_INSIDE: u32 = 5;

    /// What the warning says.
    pub fn sentence(self) -> &'static str {
        said(&WARNINGS, self.number)
    }
}

impl fmt::Display for Warning {
    fn fmt(&self, f: &mut fmt::Formatter<'_>) -> fmt::Result {
        write!(f, "line {}: warning {}: {}", self.line, self.number, self.sentence())
    }
}

fn said(table: &[(u32, &'static str)], number: u32) -> &'static str {
    table.iter().find(|row| row.0 == number).map_or("see docs/NUMBERS.md", |row| row.1)
}

/// The second column of the table of numbers in docs/GUIDE.md.
const REFUSALS: [(u32, &str); 30] = [
    (0, "done"),
    (1, "no longer given: a blank trim list keeps the whole play"),
    (2, "an entry of the list is not Trim(a,b)"),
    (3, "a or b is no whole number below 4,294,967,296"),
    (4, "a is greater than b"),
    (5, "b is 4,294,967,295"),
    (6, "a trim begins before the one before it has ended"),
    (7, "the list has more than 65,536 bytes or 1,024 trims"),
    (8, "two trims overlap once they are widened to cutting places"),
    (9, "a trim begins after it ends once it is narrowed (only when cutting inward)"),
    (10, "too few frames are stored behind the first frame of a trim"),
    (11, "the sheet has a wrong length"),
    (12, "a block of the sheet is damaged"),
    (13, "the sheet's head is wrong: ticks a second, frame count, or a spare word"),
    (14, "a frame's entry in the sheet is wrong"),
    (15, "the map, or the ticks a second, is out of range"),
    (16, "an argument is out of range, or a lent buffer too short"),
    (17, "a session that this library did not make"),
    (18, "the session has ended"),
    (19, "a line of the captions has more than 4,096 bytes"),
    (20, "the captions, the trim list or the path of a map's JSON are not UTF-8"),
    (21, "an SRT or WebVTT block has more than 4,096 bytes"),
    (22, "a caption's time can't be read"),
    (23, "a text is no segment map as the cutter stores it"),
    (24, "the WebVTT captions do not begin with the line WEBVTT"),
    (25, "two frames of the sheet name the same stored picture"),
    (26, "the recording, or what is kept of it, lasts longer than 2^53 ticks"),
    (27, "the stored bytes are no parked session"),
    (28, "the kept stretches do not follow the recording in order, so starts can't be counted through them"),
    (29, "more than 4,096 captions are to be shifted, or no shift is to be tried"),
];

/// The second column of its table of warnings.
const WARNINGS: [(u32, &str); 5] = [
    (1, "an ASS caption passed unchanged: its Format line names no Start or no End"),
    (2, "an ASS caption passed unchanged: it has fewer fields than the Format line"),
    (3, "the start was cut off, and the caption has tags that count from its start (fades, moves, karaoke)"),
    (4, "the end was cut off, and a kept stretch further on has a part of the same caption"),
    (5, "a WebVTT caption that is kept has times inside its lines (<00:00:18.500>), which stay as they were"),
];

#[cfg(test)]
mod tests {
    use super::*;

    /// The rows of a table of docs/GUIDE.md, number and second column, without backticks.
    fn rows(part: &str) -> Vec<(u32, String)> {
        let cells = part.lines().filter_map(|line| line.strip_prefix("| ")?.split_once(" | "));
        cells.filter_map(|(number, rest)| Some((number.parse().ok()?, rest.split(" |").next()?.replace('`', "")))).collect()
    }

    fn held(table: &[(u32, &str)], part: &str) {
        let here: Vec<(u32, String)> = table.iter().map(|(n, says)| (*n, says.to_string())).collect();
        assert_eq!(here, rows(part));
    }

    /// The rows `NAME = N` of an enum of include/retimer.h.
    fn header(part: &str) -> Vec<(String, u32)> {
        let text = std::fs::read_to_string(concat!(env!("CARGO_MANIFEST_DIR"), "/../../include/retimer.h")).unwrap();
        let body = text.split_once(&format!("enum {part} {{")).unwrap().1.split_once("};").unwrap().0.to_string();
        let rows = body.lines().filter_map(|l| l.trim().strip_prefix("RETIMER_")?.split_once(" = "));
        rows.map(|(name, rest)| (name.to_string(), rest.split(|c: char| !c.is_ascii_digit()).next().unwrap().parse().unwrap())).collect()
    }

    /// Names and sentences are those of the header.
    #[test]
    fn as_in_the_header() {
        let named: Vec<(String, u32)> = [("DONE", 0)].iter().chain(NAMES).map(|(n, k)| (n.to_string(), *k)).collect();
        assert_eq!(named, header("retimer_number"));
        let warnings = [("UNKNOWN_COLUMN", Warning::UNKNOWN_COLUMN), ("FEW_FIELDS", Warning::FEW_FIELDS), ("RELATIVE_TAG", Warning::RELATIVE_TAG), ("LOST_PART", Warning::LOST_PART), ("TIMES_INSIDE", Warning::TIMES_INSIDE)];
        assert_eq!(warnings.map(|(n, k)| (n.to_string(), k)).to_vec(), header("retimer_warning"));
        let text = std::fs::read_to_string(concat!(env!("CARGO_MANIFEST_DIR"), "/../../include/retimer.h")).unwrap();
        for (of, table) in [("RETIMER_SENTENCES", &REFUSALS[..]), ("RETIMER_WARNING_SENTENCES", &WARNINGS[..])] {
            let part = text.split_once(&format!("#define {of} ")).unwrap().1.split_once('}').unwrap().0;
            let there: Vec<&str> = part.lines().filter_map(|l| l.trim().strip_prefix('"')?.rsplit_once('"').map(|(words, _)| words)).collect();
            assert_eq!(there, table.iter().map(|row| row.1).collect::<Vec<_>>());
        }
    }

    /// Every sentence stands in the manual page, below its number.
    #[test]
    fn as_in_the_manual() {
        let page = std::fs::read_to_string(concat!(env!("CARGO_MANIFEST_DIR"), "/bobbincrag.1")).unwrap().replace("\\-", "-");
        let (numbers, warnings) = page.split_once("\n.SH NUMBERS\n").unwrap().1.split_once("\n.SH WARNINGS\n").unwrap();
        for (part, table) in [(numbers, &REFUSALS[1..]), (warnings.split("\n.SH").next().unwrap(), &WARNINGS[..])] {
            let there: Vec<(u32, String)> = part.split(".TP\n.B ").skip(1).filter_map(|row| row.split_once('\n')).map(|(n, rest)| (n.parse().unwrap(), rest.lines().next().unwrap().trim_end_matches('.').to_string())).collect();
            assert_eq!(there, table.iter().map(|(n, says)| (*n, says.to_string())).collect::<Vec<_>>());
        }
    }

    /// Both tables are those of docs/GUIDE.md, row for row.
    #[test]
    fn as_in_the_guide() {
        let guide = std::fs::read_to_string(concat!(env!("CARGO_MANIFEST_DIR"), "/../../docs/GUIDE.md")).unwrap();
        let (_, numbers) = guide.split_once("\n## Numbers\n").unwrap();
        let (_, warnings) = guide.split_once("\n## Warnings\n").unwrap();
        held(&REFUSALS, numbers.split("\n## ").next().unwrap());
        held(&WARNINGS, warnings);
    }
}
