//! Lists below the picture: what vanished, then what was clipped or is warned of.
use super::bars::{class, marks, shape, Bar, MARK};
use super::head::count;
use super::pen::{Pen, MARGIN};
use super::play::{Caption, Play};
use super::text::{fit, width};
use super::Fate;

/// The height of an entry, and the entries of a list that stays in one column.
const PITCH: f64 = 19.0;
const ONE_COLUMN: usize = 8;

/// How long a list can be, and how wide its columns are at least.
struct Form {
    most: usize,
    column: f64,
}

/// What vanished has most room.
const LOST: Form = Form { most: 1000, column: 500.0 };
const TOUCHED: Form = Form { most: 200, column: 700.0 };

/// The names of the lists, to which the head's counts and the overview lead.
pub const VANISHED: &str = "vanished";
pub const OTHERS: &str = "others";

/// Draws the lists and answers their height.
pub fn draw(play: &Play, pen: &mut Pen) -> f64 {
    let dropped: Vec<&Caption> = play.captions.iter().filter(|c| c.told.fate == Fate::Dropped).collect();
    let touched = |c: &&Caption| c.told.fate != Fate::Dropped && (c.told.fate != Fate::Shifted || !c.told.warnings.is_empty());
    let others: Vec<&Caption> = play.captions.iter().filter(touched).collect();
    let vanished = match dropped.len() {
        _ if play.captions.is_empty() => "There are no captions".to_string(),
        0 => "Nothing vanished: no caption is dropped".to_string(),
        n => format!("What vanished: {} dropped", count(n, "caption", "captions")),
    };
    let y = section(play, pen, 18.0, (&LOST, VANISHED), &vanished, &dropped);
    match others.len() {
        0 => y,
        n => section(play, pen, y + 14.0, (&TOUCHED, OTHERS), &format!("Clipped, passed or warned of: {}", count(n, "caption", "captions")), &others),
    }
}

/// One list from `y` on. It answers where the list ends.
fn section(play: &Play, pen: &mut Pen, y: f64, (form, name): (&Form, &str), heading: &str, all: &[&Caption]) -> f64 {
    pen.add(format_args!("<g id=\"{name}\">\n"));
    pen.words("b", MARGIN, y, heading);
    pen.add(format_args!("</g>\n"));
    let (shown, room) = (&all[..all.len().min(form.most)], play.look.right - MARGIN);
    let columns = if shown.len() > ONE_COLUMN { (room / form.column) as usize } else { 1 };
    let (rows, wide) = (shown.len().div_ceil(columns), room / columns as f64);
    let times = shown.iter().map(|c| width(&was(play, c), 12.0)).fold(0.0, f64::max) + 14.0;
    for (k, caption) in shown.iter().enumerate() {
        let x = MARGIN + (k / rows) as f64 * wide;
        entry(play, pen, caption, (x, x + wide - 20.0), times, y + 24.0 + (k % rows) as f64 * PITCH);
    }
    let end = y + 24.0 + rows as f64 * PITCH;
    if all.len() > form.most {
        pen.words("b", MARGIN, end + 8.0, &format!("and {} more", count(all.len() - form.most, "", "")));
        return end + PITCH + 14.0;
    }
    end
}

/// The times of a caption, where it has any.
fn was(play: &Play, c: &Caption) -> String {
    c.span.map_or("no times are read".to_string(), |_| play.span((c.told.start, c.told.end)))
}

/// One caption: its fate as a small bar, line, times, warnings, words.
fn entry(play: &Play, pen: &mut Pen, c: &Caption, x: (f64, f64), times: f64, y: f64) {
    let fate = c.told.fate;
    let solid = if fate == Fate::Clipped { (x.0, x.0 + 14.0) } else { (x.0, x.0 + 22.0) };
    let bar = Bar { who: 0, whole: (x.0, x.0 + 22.0), solid: Some(solid), torn: (false, fate == Fate::Clipped) };
    pen.add(format_args!("<g class=\"{}\">", class(fate)));
    shape(pen, fate, &bar, y - 10.5, 12.0);
    pen.add(format_args!("</g>"));
    let line = format!("line {}", c.told.line);
    pen.words("q", x.0 + 30.0, y, &line);
    let mut at = x.0 + 30.0 + width(&line, 12.0).max(62.0) + 10.0;
    pen.words("q", at, y, &was(play, c));
    at += times;
    if let Some(new) = c.told.new {
        let is = format!("to {}", play.span((new.start, new.end)));
        pen.words("q", at, y, &is);
        at += width(&is, 12.0).max(times) + 14.0;
    }
    marks(pen, &c.told.warnings, at, y + 2.0);
    at += c.told.warnings.len() as f64 * MARK.0 + 4.0;
    // bold letters are wider
    let (class, size) = if fate == Fate::Dropped { ("bd", 13.0) } else { ("q", 12.0) };
    pen.words(class, at, y, &fit(&c.words, size, x.1 - at));
}
