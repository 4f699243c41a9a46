//! A caption text retimed: in pieces, by a session that can be parked, or as a whole.
use crate::captions::{self, Place, Rest};
use crate::sheet::{word, BLOCK};
use crate::{ffi, Kind, Map, Refused, Warning};
use std::borrow::Borrow;

/// Bytes of a parked session.
pub const SESSION_BYTES: usize = 9_216;
/// Bytes of a piece that a C call takes, at most.
pub const MOST_PIECE: usize = 1_024;
/// Bytes of output that a C call is lent, at least.
pub const LEAST_OUTPUT: usize = 32_768;
/// Places for warnings that a C call is lent, at least.
pub const LEAST_PLACES: usize = 4_096;

/// What was written.
#[derive(Clone, Debug, Default, PartialEq, Eq)]
pub struct Written {
    /// The bytes of the retimed text.
    pub text: Vec<u8>,
    /// The warnings, in the text's order.
    pub warnings: Vec<Warning>,
}

/// How many captions had which fate.
#[derive(Clone, Copy, Debug, Default, PartialEq, Eq)]
pub struct Counts {
    /// Moved.
    pub shifted: u64,
    /// Moved, with an end cut off.
    pub clipped: u64,
    /// Dropped.
    pub dropped: u64,
    /// ASS captions that passed unchanged (warnings 1 and 2).
    pub passed: u64,
}

impl std::fmt::Display for Counts {
    fn fmt(&self, f: &mut std::fmt::Formatter<'_>) -> std::fmt::Result {
        write!(f, "{} shifted, {} clipped, {} dropped, {} passed", self.shifted, self.clipped, self.dropped, self.passed)
    }
}

/// A call that was refused (15 to 18), or a fault of the text (19 to 22, 24), with what stands before it.
#[derive(Clone, Debug, PartialEq, Eq)]
pub struct Stopped {
    /// The number and its sentence.
    pub refused: Refused,
    /// Where the text is at fault.
    pub place: Option<Place>,
    /// What was written before the fault's line or block; nothing by a call that was refused.
    pub before: Written,
}

impl std::fmt::Display for Stopped {
    fn fmt(&self, f: &mut std::fmt::Formatter<'_>) -> std::fmt::Result {
        match &self.place {
            Some(place) => write!(f, "{} ({place})", self.refused),
            None => self.refused.fmt(f),
        }
    }
}

impl std::error::Error for Stopped {}

impl From<Refused> for Stopped {
    fn from(refused: Refused) -> Stopped {
        Stopped { refused, place: None, before: Written::default() }
    }
}

/// A session: takes a text in pieces and writes what is complete.
///
/// Between two calls it can be parked, which is its 9,216 bytes, and resumed from them, on another day and by another program.
///
/// ```
/// use retimer::{Kind, Map, Session};
/// let map = Map::from_numbers(30_000, vec![0, 3, 0, 3, 0, 3_003, 6, 10, 6_006, 4, 3_003, 4_004]);
/// let mut session = Session::open(Kind::Vtt, &map)?;
/// let first = session.feed(b"WEBVTT\n\n00:00.210 --> 00:0")?;
/// assert_eq!(first.text, b"WEBVTT\n\n");
/// let parked = session.park();
/// let mut session = Session::resume(&map, &parked)?;
/// session.feed(b"0.250\nA line\n")?;
/// let last = session.finish()?;
/// assert_eq!(last.text, b"00:00:00.109 --> 00:00:00.150\nA line\n");
/// assert_eq!(session.counts().shifted, 1);
/// # Ok::<(), retimer::Stopped>(())
/// ```
///
/// A session keeps its map: lent (`&map`, as here), owned, or shared by `Rc` or `Arc`.
#[derive(Clone)]
pub struct Session<M = Map> {
    map: M,
    bytes: Box<[u8; SESSION_BYTES]>,
    lent: Lent,
}

impl<M: Borrow<Map>> Session<M> {
    /// A session for a text of the kind, through the map; 15 for a map outside the limits.
    pub fn open(kind: Kind, map: M) -> Result<Session<M>, Refused> {
        let mut bytes = Box::new([0; SESSION_BYTES]);
        Refused::unless_done(ffi::open(kind.number(), map.borrow().timescale, &map.borrow().numbers, &mut bytes[..]))?;
        Ok(Session { map, bytes, lent: Lent::new() })
    }

    /// A session from its parked bytes, with the map that it was opened with: 27 for bytes that are no parked session, 17 for one that no call leads to. An ended
    /// session comes back too.
    pub fn resume(map: M, parked: &[u8]) -> Result<Session<M>, Refused> {
        let bytes: Box<[u8; SESSION_BYTES]> = Box::new(parked.try_into().map_err(|_| Refused(27))?);
        let mut lent = Lent::new();
        // an empty piece, fed to a copy with an empty map, tells whether the bytes are a session
        let told = lent.call(&mut bytes.clone()[..], |s, out, places, written, warned| ffi::feed(s, &[], &[], out, places, written, warned));
        match told.number {
            0 | 18 => Ok(Session { map, bytes, lent }),
            n => Err(Refused(n)),
        }
    }

    /// The bytes to store.
    pub fn park(&self) -> [u8; SESSION_BYTES] {
        *self.bytes
    }

    /// How many captions had which fate so far.
    pub fn counts(&self) -> Counts {
        counts_in(&self.bytes[..])
    }

    /// How many bytes were taken.
    pub fn taken(&self) -> u64 {
        word(&self.bytes[..], 6).into()
    }

    /// Whether it has ended: by a finish, or by a fault of the text.
    pub fn has_ended(&self) -> bool {
        word(&self.bytes[..], 4) == 1
    }

    /// A piece of the text, of any length and cut anywhere; an empty one changes nothing.
    pub fn feed(&mut self, piece: &[u8]) -> Result<Written, Stopped> {
        let mut all = Written::default();
        let mut rest = piece;
        loop {
            let (part, behind) = rest.split_at(rest.len().min(MOST_PIECE));
            let before = self.bytes.clone();
            let numbers = &self.map.borrow().numbers;
            let told = self.lent.call(&mut self.bytes[..], |s, out, places, written, warned| ffi::feed(s, numbers, part, out, places, written, warned));
            self.lent.take(told, &mut all);
            unless_faulty(told.number, &before[..], part, &mut all)?;
            if behind.is_empty() {
                return Ok(all);
            }
            rest = behind;
        }
    }

    /// The end of the text.
    pub fn finish(&mut self) -> Result<Written, Stopped> {
        let mut all = Written::default();
        let before = self.bytes.clone();
        let numbers = &self.map.borrow().numbers;
        let told = self.lent.call(&mut self.bytes[..], |s, out, places, written, warned| ffi::finish(s, numbers, out, places, written, warned));
        self.lent.take(told, &mut all);
        unless_faulty(told.number, &before[..], &[], &mut all)?;
        Ok(all)
    }
}

/// Output and places, as many as a call needs.
#[derive(Clone)]
struct Lent {
    out: Vec<u8>,
    places: Vec<u64>,
}

/// What a call told: its number, how many bytes it wrote, and how many numbers for warnings.
#[derive(Clone, Copy)]
struct Told {
    number: u32,
    written: usize,
    warned: usize,
}

impl Lent {
    fn new() -> Lent {
        Lent { out: vec![0; LEAST_OUTPUT], places: vec![0; LEAST_PLACES] }
    }

    fn call(&mut self, session: &mut [u8], call: impl FnOnce(&mut [u8], &mut [u8], &mut [u64], &mut u64, &mut u64) -> u32) -> Told {
        let (mut written, mut warned) = (0, 0);
        let number = call(session, &mut self.out, &mut self.places, &mut written, &mut warned);
        Told { number, written: written as usize, warned: warned as usize }
    }

    /// Adds what was written.
    fn take(&self, told: Told, all: &mut Written) {
        all.text.extend_from_slice(&self.out[..told.written]);
        all.warnings.extend(warnings_in(&self.places[..told.warned]));
    }
}

/// The counts of parked bytes. Block 0 has, from word 1 on: mark, kind, ticks a second, ended, outcome, taken, lines ended, four counts, `Events`, columns, places
/// of Start and End, held bytes (request 2.10).
fn counts_in(session: &[u8]) -> Counts {
    let [shifted, clipped, dropped, passed] = [8, 9, 10, 11].map(|k| word(session, k).into());
    Counts { shifted, clipped, dropped, passed }
}

/// Nothing for 0, else the number with what was written before it, and its place.
fn unless_faulty(number: u32, session: &[u8], part: &[u8], all: &mut Written) -> Result<(), Stopped> {
    if number == 0 {
        return Ok(());
    }
    Err(Stopped { refused: Refused(number), place: place_in(number, session, part), before: std::mem::take(all) })
}

/// Where a piece is at fault: the bytes of the session before the call hold an open block and an unfinished line, the number of lines before these, and the columns, and with the piece behind them
/// they are read.
fn place_in(number: u32, session: &[u8], part: &[u8]) -> Option<Place> {
    if !matches!(number, 19..=22 | 24) {
        return None;
    }
    let word = |k| word(session, k) as usize;
    let mut text: Vec<u8> = session[BLOCK..].chunks_exact(BLOCK).flat_map(|block| &block[4..508]).copied().take(word(16)).collect();
    let ended = text.iter().filter(|b| **b == b'\n').count();
    text.extend_from_slice(part);
    let kind = Kind::ALL.into_iter().find(|k| k.number() as usize == word(2))?;
    let line = (word(7) + 1).saturating_sub(ended) as u64;
    Rest { kind, line, events: word(12) == 1, columns: word(13), start: word(14), stop: word(15) }.place(number, &text)
}

/// Warnings as the C functions tell them: two numbers each.
fn warnings_in(numbers: &[u64]) -> impl Iterator<Item = Warning> + '_ {
    numbers.chunks_exact(2).map(|w| Warning { number: w[0] as u32, line: w[1] })
}

/// A whole text, retimed.
#[derive(Clone, Debug, Default, PartialEq, Eq)]
pub struct Retimed {
    /// The bytes of the retimed text.
    pub text: Vec<u8>,
    /// The warnings, in the text's order.
    pub warnings: Vec<Warning>,
    /// How many captions had which fate.
    pub counts: Counts,
}

/// Retimes a whole text through a map.
///
/// ```
/// use retimer::{retime, Kind, Map, Refused};
/// let map = Map::from_numbers(30_000, vec![0, 3, 0, 3, 0, 3_003, 6, 10, 6_006, 4, 3_003, 4_004]);
/// let retimed = retime(Kind::Srt, &map, b"1\n00:00:00,050 --> 00:00:00,250\nA line\n")?;
/// assert_eq!(retimed.text, b"1\n00:00:00,050 --> 00:00:00,101\nA line\n");
/// assert_eq!((retimed.counts.clipped, retimed.warnings[0].number), (1, 4));
/// // a fault of the text is told with its line and the words there
/// let stopped = retime(Kind::Srt, &map, b"1\n00:00:00,050 --> soon\nA line\n").unwrap_err();
/// assert_eq!(stopped.refused, Refused(22));
/// assert_eq!(stopped.to_string(), "refused 22: a caption's time can't be read (line 2: \"00:00:00,050 --> soon A line\")");
/// # Ok::<(), retimer::Stopped>(())
/// ```
pub fn retime(kind: Kind, map: &Map, text: &[u8]) -> Result<Retimed, Stopped> {
    let (number, retimed) = whole(kind, map, text);
    if number == 0 {
        return Ok(retimed);
    }
    let before = Written { text: retimed.text, warnings: retimed.warnings };
    Err(Stopped { refused: Refused(number), place: captions::read(kind, text).ok().and_then(|r| r.place()), before })
}

/// Bytes of a text that is retimed by one call; the output that is lent to it is three times as long, so longer texts go through a session.
const MOST_AT_ONCE: usize = 1 << 25;

/// The number, and what a session gives that is fed all of the text and finished; nothing of a text that is refused (15, 16).
fn whole(kind: Kind, map: &Map, text: &[u8]) -> (u32, Retimed) {
    if text.len() <= MOST_AT_ONCE {
        at_once(kind, map, text)
    } else {
        in_pieces(kind, map, text)
    }
}

/// By one call.
fn at_once(kind: Kind, map: &Map, text: &[u8]) -> (u32, Retimed) {
    let (mut out, mut places, mut told) = (vec![0; 3 * text.len() + LEAST_OUTPUT], vec![0; text.len() / 3 + LEAST_PLACES], [0; 7]);
    let number = ffi::text(kind.number(), map.timescale, &map.numbers, text, &mut out, &mut places, &mut told);
    let [written, warned, shifted, clipped, dropped, passed, _] = told;
    out.truncate(written as usize);
    out.shrink_to_fit();
    let warnings = warnings_in(&places[..warned as usize]).collect();
    (number, Retimed { text: out, warnings, counts: Counts { shifted, clipped, dropped, passed } })
}

/// By a session.
fn in_pieces(kind: Kind, map: &Map, text: &[u8]) -> (u32, Retimed) {
    let mut session = [0; SESSION_BYTES];
    let mut number = ffi::open(kind.number(), map.timescale, &map.numbers, &mut session);
    let (mut all, mut lent) = (Written::default(), Lent::new());
    let mut pieces = text.chunks(MOST_PIECE).map(Some).chain([None]);
    while let (0, Some(piece)) = (number, pieces.next()) {
        let told = lent.call(&mut session, |s, out, places, written, warned| match piece {
            Some(piece) => ffi::feed(s, &map.numbers, piece, out, places, written, warned),
            None => ffi::finish(s, &map.numbers, out, places, written, warned),
        });
        lent.take(told, &mut all);
        number = told.number;
    }
    match number {
        15..=18 => (number, Retimed::default()),
        _ => (number, Retimed { text: all.text, warnings: all.warnings, counts: counts_in(&session) }),
    }
}

#[cfg(test)]
mod tests {
    use super::*;

    fn map() -> Map {
        Map { timescale: 1_000, numbers: vec![0, 1, 0, 1, 0, 20_000, 1, 2, 30_000, 1, 20_000, 60_000] }
    }

    /// Captions of a kind, one every second and twelve long, and a line at the end.
    fn text(kind: Kind, count: u64, last: &str) -> String {
        let caption = |k: u64| {
            let (a, b) = (kind.time(kind.units() * k), kind.time(kind.units() * (k + 12)));
            match kind {
                Kind::Ass => format!("Dialogue: {a},{b},{{\\k5}}word\n"),
                Kind::Srt | Kind::Vtt => format!("{a} --> {b}\n<{k}>word\n\n"),
            }
        };
        let head = match kind {
            Kind::Ass => "[Events]\nFormat: Start, End, Text\n",
            Kind::Srt => "",
            Kind::Vtt => "WEBVTT\n\n",
        };
        head.to_string() + &(0..count).map(caption).collect::<String>() + last
    }

    /// Both ways are the same, of faulty and of refused texts too.
    #[test]
    fn both_ways() {
        let long = "x".repeat(4_097);
        for kind in Kind::ALL {
            for last in ["", "1 --> 2", "Dialogue: 1,2,3\n", &long, "\u{FEFF}", "Dialogue: 1"] {
                for count in [0, 1, 90, 1_000] {
                    let text = text(kind, count, last);
                    let told = at_once(kind, &map(), text.as_bytes());
                    assert_eq!(told, in_pieces(kind, &map(), text.as_bytes()), "{kind:?} {count} {last}");
                    let Counts { shifted, clipped, dropped, .. } = told.1.counts;
                    assert!(count < 1_000 || shifted > 50 && clipped > 10 && dropped > 900 && !told.1.warnings.is_empty(), "{kind:?} {:?}", told.1.counts);
                }
            }
            let bad = Map { timescale: 0, ..map() };
            assert_eq!(at_once(kind, &bad, b"x"), (15, Retimed::default()));
            assert_eq!(in_pieces(kind, &bad, b"x"), (15, Retimed::default()));
        }
    }
}
