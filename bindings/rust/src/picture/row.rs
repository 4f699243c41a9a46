//! A row: its part of the recording above, what is kept of it below, and the captions on both sides.
use super::bars::{class, cross_width, marks, shape, told, word, words, Bar, MARK};
use super::clock::{brief, span};
use super::fold::Row;
use super::ground::{cut, joins, labels, recording, Frame};
use super::head::count;
use super::lanes::Block;
use super::pen::{rectangle, Pen, LEFT, MARGIN, N};
use super::place::{pieces, Scale};
use super::play::{end_of, Look, Play};
use super::sides::{is, was, Side};
use super::text::escape;
use super::Fate;

/// The height of an axis.
const AXIS: f64 = 20.0;

/// Draws a row and answers its height.
pub fn draw(play: &Play, row: &Row, pen: &mut Pen) -> f64 {
    let scale = Scale::of(row);
    let pieces = pieces(play, row, scale);
    let above = was(play, row, scale);
    let below = is(play, row, &pieces, &above);
    let foot = AXIS + above.height;
    let head = foot + if pieces.is_empty() { 0.0 } else { row.look.join };
    let end = head + if pieces.is_empty() { 0.0 } else { below.height };
    let frame = Frame { top: AXIS, foot, head, end };
    recording(play, pen, scale, row.to, &pieces, &frame);
    joins(pen, scale, &pieces, &frame);
    cut(play, pen, scale, &pieces, &frame);
    lines(play, pen, row, &above, &below, &frame);
    labels(play, pen, scale, row.to, &pieces, &frame);
    margin(play, row, pen, &frame, pieces.is_empty());
    captions(play, pen, row, &above, &below, &frame);
    frame.end + AXIS + row.look.after
}

/// The labels left of a row: which is which, and how many captions fared how.
fn margin(play: &Play, row: &Row, pen: &mut Pen, f: &Frame, empty: bool) {
    pen.words("y", MARGIN, f.top - 6.0, "recording");
    if !empty {
        pen.words("y", MARGIN, f.end + 15.0, "cut");
    }
    let c = play.counts(row.captions.iter().copied());
    let mut y = f.top + 14.0;
    for (class, count, name) in [("md", c.dropped, "dropped"), ("mc", c.clipped, "clipped"), ("mw", c.warned, "warned")] {
        if count > 0 {
            pen.words(class, MARGIN, y, &format!("{count} {name}"));
            y += 15.0;
        }
    }
}

/// A thin line from where each kept caption was to where it is.
fn lines(play: &Play, pen: &mut Pen, row: &Row, above: &Side, below: &Side, f: &Frame) {
    let (mut shifted, mut clipped) = (String::new(), String::new());
    for (k, bar) in below.bars.iter().enumerate() {
        let from = above.bars.binary_search_by_key(&bar.who, |b| b.who).ok();
        let (Some(j), Some(lane)) = (from, below.stack.lane[k]) else { continue };
        let (Some(high), Some(solid)) = (above.stack.lane[j], above.bars[j].solid) else { continue };
        let path = if play.captions[bar.who].told.fate == Fate::Clipped { &mut clipped } else { &mut shifted };
        let (from, to) = (f.top + above.tops[high] + row.look.bar, f.head + below.tops[lane]);
        *path += &format!("M{} {}L{} {}", N(solid.0 + 0.8), N(from), N(bar.whole.0 + 0.8), N(to));
    }
    pen.path("js", &shifted);
    pen.path("jc", &clipped);
}

/// The bars of the row's captions, each on both sides.
fn captions(play: &Play, pen: &mut Pen, row: &Row, above: &Side, below: &Side, f: &Frame) {
    let (mut a, mut b) = (0, 0);
    for &k in &row.captions {
        let was = next(above, &mut a, k).map(|(bar, y)| (bar, f.top + y));
        let is = next(below, &mut b, k).map(|(bar, y)| (bar, f.head + y));
        if was.is_none() && is.is_none() {
            continue;
        }
        let caption = &play.captions[k];
        pen.add(format_args!("<g class=\"{}\"><title>{}</title>", class(caption.told.fate), escape(&told(play, caption))));
        for (bar, y) in was.into_iter().chain(is) {
            one(play, pen, &row.look, bar, y);
        }
        if let Some((bar, y)) = was {
            marks(pen, &caption.told.warnings, bar.whole.0, y - 1.0);
        }
        pen.add(format_args!("</g>\n"));
    }
    blocks(play, pen, &row.look, above, f.top);
    blocks(play, pen, &row.look, below, f.head);
}

/// The bar of caption `k` and its height in its side, where it has a lane. The side's bars come in the order of the row's captions.
fn next<'a>(side: &'a Side, at: &mut usize, k: usize) -> Option<(&'a Bar, f64)> {
    let bar = side.bars.get(*at).filter(|b| b.who == k)?;
    *at += 1;
    side.stack.lane[*at - 1].map(|lane| (bar, side.tops[lane]))
}

/// One bar with its words.
fn one(play: &Play, pen: &mut Pen, look: &Look, bar: &Bar, y: f64) {
    let caption = &play.captions[bar.who];
    let (fate, height) = (caption.told.fate, look.bar);
    shape(pen, fate, bar, y, height);
    let beside = if fate == Fate::Dropped { cross_width(bar.whole, height) + 3.0 } else { 0.0 };
    let slant = if bar.torn.0 && bar.solid == Some(bar.whole) { 8.0 } else { 0.0 };
    words(pen, look, &caption.words, (bar.whole.0 + beside + slant, bar.whole.1), y);
}

/// Blocks of captions that found no lane, with their counts.
fn blocks(play: &Play, pen: &mut Pen, look: &Look, side: &Side, top: f64) {
    for Block { lane, from, to, members } in &side.stack.blocks {
        let who = side.bars[members[0]].who;
        let (told, y) = (play.captions[who].told, top + side.tops[*lane]);
        let title = format!("{} more captions, {}", members.len(), word(told.fate));
        pen.add(format_args!("<g class=\"{}\"><title>{title}</title>", class(told.fate)));
        let bar = Bar { who, whole: (*from, *to), solid: Some((*from, *to)), torn: (false, false) };
        shape(pen, told.fate, &bar, y, look.bar);
        let beside = if told.fate == Fate::Dropped { cross_width(bar.whole, look.bar) + 3.0 } else { 0.0 };
        let count = format!("+{}", members.len());
        match look.lines {
            0 => pen.words("n", to + 12.0, y + look.bar, &count),
            _ => words(pen, look, &count, (from + beside, to + 40.0), y),
        }
        if side.stack.marked[*lane] {
            marks(pen, &told.warnings[..1], *from, y - 1.0);
        }
        pen.add(format_args!("</g>\n"));
    }
}

/// A part of the recording in which nothing happens but that captions are shifted, as one thin line.
pub fn gap(play: &Play, (from, to): (u64, u64), captions: usize, pen: &mut Pen) -> f64 {
    let kept = play.cut.segments.iter().find(|s| s.duration > 0 && s.source <= from && to <= end_of(s));
    let (ground, what) = match kept {
        Some(s) => {
            let output = [from, to].map(|t| s.output.saturating_add(t - s.source));
            ("k", format!("kept, at {} – {} of the cut", play.from(output[0]), play.to(output[1])))
        }
        None if from >= play.end => ("z", "past the end of the recording".to_string()),
        None => ("a", "cut away".to_string()),
    };
    pen.path(ground, &rectangle((LEFT, play.look.right), 0.0, MARK.1 + 5.0));
    let there = match captions {
        0 => "no captions".to_string(),
        n => format!("{} shifted", count(n, "caption", "captions")),
    };
    let words = format!("{}, {}: {what}, {there}", span((from, to), play.timescale), brief(to - from, play.timescale));
    pen.words("o m", (LEFT + play.look.right) / 2.0, 14.0, &words);
    MARK.1 + 5.0 + play.look.after
}
