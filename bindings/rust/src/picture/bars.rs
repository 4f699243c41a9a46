//! A caption's bar: its fate by colour and by shape, its words, the marks of its warnings, and what it says when pointed at.
use super::pen::{rectangle, Pen, N};
use super::play::{Caption, Look, Play};
use super::text::{escape, lines};
use super::Fate;

/// The width and height of a warning's mark.
pub const MARK: (f64, f64) = (17.0, 15.0);
/// How far a torn end slants.
const SLANT: f64 = 9.0;

/// A bar from left to right.
#[derive(Clone, Copy)]
pub struct Bar {
    /// The caption's place in the list.
    pub who: usize,
    pub whole: (f64, f64),
    /// What is kept of it.
    pub solid: Option<(f64, f64)>,
    /// Whether its left and its right end is torn.
    pub torn: (bool, bool),
}

/// The class of a fate in the style sheet.
pub fn class(fate: Fate) -> &'static str {
    match fate {
        Fate::Shifted => "s",
        Fate::Clipped => "c",
        Fate::Dropped => "d",
        Fate::Passed => "p",
    }
}

/// A fate in a word.
pub fn word(fate: Fate) -> &'static str {
    match fate {
        Fate::Shifted => "shifted",
        Fate::Clipped => "clipped",
        Fate::Dropped => "dropped",
        Fate::Passed => "passed unchanged",
    }
}

/// The bar itself: solid, solid with a torn end beside a dashed rest, hollow with a cross, or dotted.
pub fn shape(pen: &mut Pen, fate: Fate, bar: &Bar, y: f64, height: f64) {
    if fate == Fate::Clipped && bar.solid != Some(bar.whole) {
        pen.path("l", &rectangle(bar.whole, y, height));
    }
    match (fate, bar.solid) {
        (Fate::Dropped | Fate::Passed, _) => pen.path("f", &rectangle(bar.whole, y, height)),
        (_, Some(solid)) => pen.path("f", &torn(solid, bar.torn, y, height)),
        _ => {}
    }
    if fate == Fate::Dropped {
        pen.path("x", &cross(bar.whole, y, height));
    }
}

fn torn(x: (f64, f64), torn: (bool, bool), y: f64, height: f64) -> String {
    let slant = SLANT.min((x.1 - x.0) / 2.0);
    let (left, right) = (x.0 + if torn.0 { slant } else { 0.0 }, x.1 - if torn.1 { slant } else { 0.0 });
    if !torn.0 && !torn.1 {
        return rectangle(x, y, height);
    }
    format!("M{} {}H{}L{} {}H{}z", N(left), N(y), N(x.1), N(right), N(y + height), N(x.0))
}

/// How wide the cross of a dropped caption's bar is.
pub fn cross_width(whole: (f64, f64), height: f64) -> f64 {
    (whole.1 - whole.0 - 4.0).clamp(4.0, height.min(20.0) - 4.0)
}

fn cross(whole: (f64, f64), y: f64, height: f64) -> String {
    let w = cross_width(whole, height);
    let tall = height.min(20.0) - 4.0;
    let (x, y) = (whole.0 + 3.0, y + (height - tall) / 2.0);
    format!("M{} {}l{} {}m0 -{}l-{} {}", N(x), N(y), N(w), N(tall), N(tall), N(w), N(tall))
}

/// The caption's words in its bar, where there is room.
pub fn words(pen: &mut Pen, look: &Look, words: &str, room: (f64, f64), y: f64) {
    let written = lines(words, look.size, room.1 - room.0 - 6.0, look.lines);
    let pitch = look.size + 2.0;
    let first = y + (look.bar - pitch * written.len() as f64) / 2.0 + look.size * 0.95;
    for (k, line) in written.iter().enumerate() {
        let y = first + pitch * k as f64;
        pen.add(format_args!("<text x=\"{}\" y=\"{}\">{}</text>", N(room.0 + 4.0), N(y), escape(line)));
    }
}

/// A mark for each warning, side by side; `y` is where they stand.
pub fn marks(pen: &mut Pen, numbers: &[u64], x: f64, y: f64) {
    for (k, number) in numbers.iter().enumerate() {
        let x = x + k as f64 * MARK.0;
        pen.path("w", &format!("M{} {}h{}l-{} -{}z", N(x), N(y), N(MARK.0 - 1.0), N((MARK.0 - 1.0) / 2.0), N(MARK.1)));
        pen.words("n", x + (MARK.0 - 1.0) / 2.0, y - 2.2, &number.to_string());
    }
}

/// What is said when the bar is pointed at.
pub fn told(play: &Play, c: &Caption) -> String {
    let was = play.span((c.told.start, c.told.end));
    let is = c.told.new.map_or(String::new(), |new| format!(" to {} of the cut", play.span((new.start, new.end))));
    let warnings: String = c.told.warnings.iter().map(|n| format!(", warning {n}")).collect();
    let turned = if c.told.end < c.told.start { ", ends before it starts" } else { "" };
    format!("line {}: {was}, {}{is}{warnings}{turned}: {}", c.told.line, word(c.told.fate), c.words)
}
