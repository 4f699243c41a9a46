//! The ground of a row: what is kept and what is cut away, both axes, and the joins between recording and cut.
use super::clock::{clock, exact, marks, nanos, step};
use super::pen::{rectangle, Pen, EDGE, N};
use super::place::{Piece, Scale};
use super::play::{end_of, Play};
use super::text::width;

/// The size of the labels of times, and where the name of an axis ends.
const SIZE: f64 = 11.0;
const LABELS: f64 = 80.0;

/// Where the parts of a row stand, from its top.
pub struct Frame {
    /// The recording, from top to foot.
    pub top: f64,
    pub foot: f64,
    /// The cut, from head to end.
    pub head: f64,
    pub end: f64,
}

/// The step of an axis whose ticks are so wide.
pub fn axis_step(play: &Play, tick: f64) -> u128 {
    let label = width(&clock(nanos(play.end, play.timescale), 0), SIZE) + 26.0;
    let least = |room: f64| room / tick * 1e9 / f64::from(play.timescale);
    match step(least(label)) {
        s if s < 1_000_000_000 => step(least(label + 50.0)),
        s => s,
    }
}

/// A part of an axis.
pub struct Axis {
    /// From tick to tick, and where these stand.
    pub ticks: (u64, u64),
    pub x: (f64, f64),
    pub step: u128,
    /// The height of the labels.
    pub label: f64,
    /// The marks reach from here to there.
    pub line: (f64, f64),
}

impl Axis {
    /// Draws it; labels left of `free` are left out. It answers where the last label ends.
    pub fn draw(&self, play: &Play, pen: &mut Pen, mut free: f64) -> f64 {
        let mut lines = String::new();
        let tick = (self.x.1 - self.x.0) / self.ticks.1.saturating_sub(self.ticks.0).max(1) as f64;
        for (past, words) in marks(self.ticks.0, self.ticks.1, play.timescale, self.step) {
            let at = self.x.0 + past * tick;
            lines += &format!("M{} {}V{}", N(at), N(self.line.0), N(self.line.1));
            let half = width(&words, SIZE) / 2.0;
            if at - half >= free && at + half <= play.look.right + EDGE {
                pen.words("t m", at, self.label, &words);
                free = at + half + 6.0;
            }
        }
        pen.path("g", &lines);
        free
    }
}

/// The recording of a row: hatched, and plain where it is kept.
pub fn recording(play: &Play, pen: &mut Pen, scale: Scale, to: u64, pieces: &[Piece], f: &Frame) {
    let end = to.min(play.end);
    if scale.from < end {
        pen.path("a", &rectangle((scale.x(scale.from), scale.x(end)), f.top, f.foot - f.top));
    }
    for p in pieces {
        let x = (scale.x(p.source.0), scale.x(p.source.1));
        pen.path("k", &rectangle(x, f.top, f.foot - f.top));
        edges(pen, p, x, f.top, f.foot);
    }
    let (ticks, x) = ((scale.from, to), (scale.x(scale.from), scale.x(to)));
    let axis = Axis { ticks, x, step: axis_step(play, scale.tick), label: f.top - 6.0, line: (f.top - 3.0, f.foot) };
    axis.draw(play, pen, LABELS);
}

/// Lines where the stretch itself begins or ends.
fn edges(pen: &mut Pen, p: &Piece, x: (f64, f64), top: f64, foot: f64) {
    for at in [p.begins.then_some(x.0), p.ends.then_some(x.1)].into_iter().flatten() {
        pen.line("e", (at, top), (at, foot));
    }
}

/// The cut of a row, and its axis: one for all pieces that follow one another.
pub fn cut(play: &Play, pen: &mut Pen, scale: Scale, pieces: &[Piece], f: &Frame) {
    for p in pieces {
        pen.path("k", &rectangle(p.x, f.head, f.end - f.head));
        edges(pen, p, p.x, f.head, f.end);
    }
    let (step, mut free, mut k) = (axis_step(play, scale.tick), LABELS, 0);
    while k < pieces.len() {
        let last = (k + 1..pieces.len()).take_while(|&j| pieces[j].follows).last().unwrap_or(k);
        let (ticks, x) = ((pieces[k].output.0, pieces[last].output.1), (pieces[k].x.0, pieces[last].x.1));
        free = Axis { ticks, x, step, label: f.end + 15.0, line: (f.head, f.end + 3.0) }.draw(play, pen, free);
        k = last + 1;
    }
}

/// Each piece joined with its place in the cut.
pub fn joins(pen: &mut Pen, scale: Scale, pieces: &[Piece], f: &Frame) {
    for p in pieces {
        let (a, b) = (scale.x(p.source.0), scale.x(p.source.1));
        pen.path("j", &format!("M{} {}H{}L{} {}H{}z", N(a), N(f.foot), N(b), N(p.x.1), N(f.head), N(p.x.0)));
        for (there, above, below) in [(p.begins, a, p.x.0), (p.ends, b, p.x.1)] {
            if there {
                pen.line("e", (above, f.foot), (below, f.head));
            }
        }
    }
}

/// What is written between recording and cut.
pub fn labels(play: &Play, pen: &mut Pen, scale: Scale, to: u64, pieces: &[Piece], f: &Frame) {
    cut_away(play, pen, scale, to, pieces, f);
    for p in pieces.iter().filter(|_| f.head - f.foot > 2.5 * SIZE) {
        piece_labels(play, pen, scale, p, f);
    }
}

/// The times of a piece's edges, and how far it moved, where there is room.
fn piece_labels(play: &Play, pen: &mut Pen, scale: Scale, p: &Piece, f: &Frame) {
    let (a, b) = (scale.x(p.source.0), scale.x(p.source.1));
    let one = width(&play.to(p.source.1), SIZE) + 8.0;
    let (first, last) = (p.begins && b - a > one, p.ends && b - a > 2.0 * one);
    if first {
        pen.words("o", a + 4.0, f.foot + 12.0, &play.from(p.source.0));
        pen.words("o", p.x.0 + 4.0, f.head - 4.0, &play.from(p.output.0));
    }
    if last {
        pen.words("o r", b - 4.0, f.foot + 12.0, &play.to(p.source.1));
        pen.words("o r", p.x.1 - 4.0, f.head - 4.0, &play.to(p.output.1));
    }
    let left = if first { a.max(p.x.0) + one } else { (a + p.x.0) / 2.0 };
    let right = if last { b.min(p.x.1) - one } else { (b + p.x.1) / 2.0 };
    let moved = moved(play, p);
    if right - left > width(&moved, SIZE) + 8.0 {
        pen.words("o m", (left + right) / 2.0, (f.foot + f.head) / 2.0 + 4.0, &moved);
    }
}

/// How far a piece moved, in words.
fn moved(play: &Play, p: &Piece) -> String {
    match (p.source.0, p.output.0) {
        (from, to) if from > to => format!("{} earlier", exact(from - to, play.timescale)),
        (from, to) if from < to => format!("{} later", exact(to - from, play.timescale)),
        _ => "not moved".to_string(),
    }
}

/// Names what is cut away, below it, where there is room.
fn cut_away(play: &Play, pen: &mut Pen, scale: Scale, to: u64, pieces: &[Piece], f: &Frame) {
    let mut at = scale.from;
    for (from, end) in pieces.iter().map(|p| p.source).chain([(to.min(play.end), to)]) {
        if at < from {
            let room = scale.x(from) - scale.x(at) - 4.0;
            if let Some(words) = hole(play, at, from).iter().find(|w| width(w, SIZE) <= room) {
                pen.words("o m", (scale.x(at) + scale.x(from)) / 2.0, f.foot + 13.0, words);
            }
        }
        at = at.max(end);
    }
}

/// Words for the hole of which a row has this part, the longest first.
fn hole(play: &Play, from: u64, to: u64) -> [String; 3] {
    let there = || play.cut.segments.iter().filter(|s| s.duration > 0);
    let first = there().map(end_of).filter(|&e| e <= from).max().unwrap_or(0);
    let last = there().map(|s| s.source).filter(|&s| s >= to).min().unwrap_or(play.end);
    let long = exact(last - first, play.timescale);
    [format!("cut away: {long}, {} – {}", play.to(first), play.from(last)), format!("cut away: {long}"), "cut away".to_string()]
}
