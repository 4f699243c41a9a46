//! The two sides of a row: bars where captions were, above, and bars where they are, below.
use super::bars::{Bar, MARK};
use super::fold::Row;
use super::lanes::{stack, Stack, Want};
use super::place::{Piece, Scale};
use super::play::{Caption, Kept, Play};
use super::Fate;

/// Room between lanes.
const BETWEEN: f64 = 3.0;

/// The bars of one side, in lanes.
pub struct Side {
    /// In the order of the captions.
    pub bars: Vec<Bar>,
    pub stack: Stack,
    /// The top of each lane's bars, from the top of the side.
    pub tops: Vec<f64>,
    pub height: f64,
}

/// Where the captions of a row were. The first lane is the lowest.
pub fn was(play: &Play, row: &Row, scale: Scale) -> Side {
    let bars: Vec<Bar> = row.captions.iter().filter_map(|&k| bar_before(&play.captions[k], k, row, scale)).collect();
    let stack = stack(&bars.iter().map(|b| want(play, b, true, None)).collect::<Vec<_>>());
    let mut side = Side { bars, tops: Vec::new(), height: row.look.edge, stack };
    for &marked in &side.stack.marked {
        side.height += row.look.bar;
        side.tops.push(side.height);
        side.height += BETWEEN + if marked { MARK.1 } else { 0.0 };
    }
    side.height = (side.height + row.look.edge).max(row.look.bar + 2.0 * row.look.edge);
    side.tops = side.tops.iter().map(|t| side.height - t).collect();
    side
}

/// Where the captions of a row are: in the lanes where they were, if these are free. The first lane is the highest.
pub fn is(play: &Play, row: &Row, pieces: &[Piece], was: &Side) -> Side {
    let bars: Vec<Bar> = row.captions.iter().filter_map(|&k| bar_after(&play.captions[k], k, row, pieces)).collect();
    let before = |b: &Bar| was.bars.binary_search_by_key(&b.who, |w| w.who).ok().and_then(|k| was.stack.lane[k]);
    let stack = stack(&bars.iter().map(|b| want(play, b, false, before(b))).collect::<Vec<_>>());
    let lanes = stack.marked.len();
    let tops = (0..lanes).map(|l| row.look.edge + l as f64 * (row.look.bar + BETWEEN)).collect();
    Side { bars, stack, tops, height: 2.0 * row.look.edge + lanes.max(1) as f64 * (row.look.bar + BETWEEN) - BETWEEN }
}

/// A bar at least so wide, moved left where it would stand out of the row.
fn wide_enough(x: (f64, f64), least: f64, row: &Row) -> (f64, f64) {
    let width = (x.1 - x.0).max(least);
    let from = x.0.min(row.look.right - width);
    (from, from + width)
}

fn bar_before(c: &Caption, who: usize, row: &Row, scale: Scale) -> Option<Bar> {
    let (from, to) = c.span?;
    let place = |from: u64, to: u64| (scale.x(from.max(row.from)), scale.x(to.clamp(row.from, row.to)));
    let least = if c.told.fate == Fate::Dropped { 11.0 } else { 3.0 };
    let whole = wide_enough(place(from, to), least, row);
    let inside = |k: &Kept| k.from < row.to && (k.to > row.from || k.from == k.to && k.from >= row.from);
    match c.told.fate {
        Fate::Dropped | Fate::Passed => Some(Bar { who, whole, solid: None, torn: (false, false) }),
        Fate::Shifted => Some(Bar { who, whole, solid: Some(whole), torn: (false, false) }),
        Fate::Clipped => {
            let kept = c.kept.filter(inside);
            let solid = kept.map(|k| wide_enough(place(k.from, k.to), least, row));
            Some(Bar { who, whole, solid, torn: kept.map_or((false, false), |k| torn(&k, row)) })
        }
    }
}

/// Which ends were cut off inside the row.
fn torn(kept: &Kept, row: &Row) -> (bool, bool) {
    (kept.torn.0 && kept.from >= row.from, kept.torn.1 && kept.to <= row.to)
}

fn bar_after(c: &Caption, who: usize, row: &Row, pieces: &[Piece]) -> Option<Bar> {
    let kept = c.kept?;
    let piece = pieces.iter().find(|p| p.stretch == kept.stretch)?;
    let (from, to) = (kept.from.max(piece.source.0), kept.to.min(piece.source.1));
    let point = kept.from == kept.to && row.from <= kept.from && kept.from < row.to;
    if from >= to && !point {
        return None;
    }
    let solid = wide_enough((piece.x_of(from), piece.x_of(to)), 3.0, row);
    let torn = torn(&kept, row);
    Some(Bar { who, whole: solid, solid: Some(solid), torn })
}

fn want(play: &Play, bar: &Bar, marks: bool, lane: Option<usize>) -> Want {
    let told = play.captions[bar.who].told;
    let warned = !told.warnings.is_empty();
    let marks = if marks { told.warnings.len() as f64 * MARK.0 } else { 0.0 };
    let plain = !warned && matches!(told.fate, Fate::Shifted | Fate::Passed);
    Want { from: bar.whole.0, to: bar.whole.1.max(bar.whole.0 + marks), group: (told.fate as usize, warned), most: play.look.lanes * if plain { 1 } else { 2 }, marked: marks > 0.0, lane }
}
