//! Where ticks stand in a row: those of the recording, and those of the cut, as near under their sources as can be.
use super::fold::Row;
use super::pen::LEFT;
use super::play::{end_of, Play};

/// Room between two parts of the cut that do not follow one another.
const APART: f64 = 10.0;

/// The recording's ticks in a row.
#[derive(Clone, Copy)]
pub struct Scale {
    pub from: u64,
    /// The width of a tick.
    pub tick: f64,
}

impl Scale {
    pub fn of(row: &Row) -> Scale {
        Scale { from: row.from, tick: (row.look.right - LEFT) / row.length as f64 }
    }

    pub fn x(&self, tick: u64) -> f64 {
        LEFT + tick.saturating_sub(self.from) as f64 * self.tick
    }
}

/// What a row has of a stretch.
pub struct Piece {
    pub stretch: usize,
    /// From tick to tick of the recording.
    pub source: (u64, u64),
    /// From tick to tick of the cut.
    pub output: (u64, u64),
    /// Where it stands in the cut of this row.
    pub x: (f64, f64),
    /// Whether it goes on where the piece before it ends.
    pub follows: bool,
    /// Whether the stretch itself begins and ends here.
    pub begins: bool,
    pub ends: bool,
}

impl Piece {
    /// Where a tick of the recording stands in the cut.
    pub fn x_of(&self, tick: u64) -> f64 {
        let part = tick.clamp(self.source.0, self.source.1) - self.source.0;
        self.x.0 + (self.x.1 - self.x.0) * part as f64 / (self.source.1 - self.source.0) as f64
    }
}

/// The pieces of a row, by their sources.
pub fn pieces(play: &Play, row: &Row, scale: Scale) -> Vec<Piece> {
    let mut all = Vec::new();
    for (stretch, s) in play.cut.segments.iter().enumerate() {
        let source = (s.source.max(row.from), end_of(s).min(row.to));
        if source.0 < source.1 {
            let output = [source.0, source.1].map(|t| s.output.saturating_add(t - s.source));
            let (begins, ends) = (source.0 == s.source, source.1 == end_of(s));
            all.push(Piece { stretch, source, output: (output[0], output[1]), x: (0.0, 0.0), follows: false, begins, ends });
        }
    }
    all.sort_by_key(|p| (p.source.0, p.stretch));
    lay(&mut all, scale);
    squeeze(&mut all, row.look.right);
    all
}

/// A piece that follows another stands against it, any other one under its source.
fn lay(all: &mut [Piece], scale: Scale) {
    let mut before: Option<(u64, f64)> = None;
    for p in all.iter_mut() {
        let width = (p.source.1 - p.source.0) as f64 * scale.tick;
        let under = scale.x(p.source.0);
        let x = match before {
            Some((end, x)) if end == p.output.0 => {
                p.follows = true;
                x
            }
            Some((_, x)) => under.max(x + APART),
            None => under,
        };
        p.x = (x, x + width);
        before = Some((p.output.1, p.x.1));
    }
}

/// Pieces whose sources overlap may need more room than there is: they are all made narrower.
fn squeeze(all: &mut [Piece], right: f64) {
    let (Some(first), Some(last)) = (all.first().map(|p| p.x.0), all.last().map(|p| p.x.1)) else { return };
    if last > right + 0.5 {
        let part = (right - first) / (last - first);
        for p in all {
            p.x = (first + (p.x.0 - first) * part, first + (p.x.1 - first) * part);
        }
    }
}
