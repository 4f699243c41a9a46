//! The recording folded into rows, as a score into systems. Rows in which nothing happens are left out.
use super::clock::nanos;
use super::pen::LEFT;
use super::play::{end_of, Look, Play};
use super::Fate;
use std::collections::{BTreeMap, BTreeSet};

/// So few rows are seen at a glance.
pub const FEW_ROWS: usize = 4;
/// The most rows of a recording, and how many captions a row has on average at least, where there are more than a few rows.
const MOST_ROWS: usize = 400;
const LEAST_CAPTIONS: usize = 4;
/// How many lengths of a row are tried where there are few.
const TRIES: u128 = 64;
/// The most rows that one caption is drawn in.
const MOST_PIECES: u64 = 40;

/// A part of the recording that is drawn in one row, in ticks.
pub struct Row {
    pub from: u64,
    pub to: u64,
    /// The length of every row; the last may be shorter.
    pub length: u64,
    /// The captions that lie in it, by their places in the list.
    pub captions: Vec<usize>,
    pub look: Look,
}

/// What is drawn of a part of the recording.
pub enum Part {
    Row(Row),
    /// Neither a caption nor the edge of a stretch from one tick to the other.
    Gap(u64, u64),
    /// Several rows in which one stretch keeps all, and so many captions are merely shifted.
    Shifted {
        from: u64,
        to: u64,
        captions: usize,
    },
}

/// The median length of captions, in ticks.
fn median(play: &Play) -> f64 {
    let mut lengths: Vec<u64> = play.captions.iter().filter_map(|c| c.span).map(|(a, b)| b - a).collect();
    lengths.sort_unstable();
    lengths.get(lengths.len() / 2).map_or(0.0, |&l| l as f64)
}

/// The length of a row: so that the median caption gets its width, and few rows are equally long, many of round length.
fn row_length(play: &Play) -> u64 {
    let most = (play.captions.len() / LEAST_CAPTIONS).clamp(FEW_ROWS, MOST_ROWS) as u64;
    let wanted = median(play) * (play.look.right - LEFT) / play.look.caption;
    if wanted < 1.0 {
        return play.end;
    }
    let least = (wanted as u64).max(play.end.div_ceil(most));
    let rows = play.end.div_ceil(least);
    if rows <= 2 * FEW_ROWS as u64 {
        return least_crossed(play, play.end.div_ceil(rows));
    }
    let seconds = (nanos(least, play.timescale) / 1_000_000_000) as u64;
    let unit = match seconds {
        0..=9 => return least,
        10..=19 => 5,
        20..=119 => 10,
        _ => 60,
    };
    (seconds / unit + 1).saturating_mul(unit).saturating_mul(u64::from(play.timescale))
}

/// A length from `length` on, and not much more, at which the fewest captions go on in a second row.
fn least_crossed(play: &Play, length: u64) -> u64 {
    let crossed = |l: u64| play.captions.iter().filter_map(|c| c.span).filter(|&s| rows_of(s, l).0 != rows_of(s, l).1).count();
    let tried = (0..=TRIES).map(|k| length.saturating_add((u128::from(length) * k / (3 * TRIES)) as u64));
    tried.min_by_key(|&l| crossed(l)).unwrap_or(length)
}

/// The first and the last row of a caption.
fn rows_of((from, to): (u64, u64), length: u64) -> (u64, u64) {
    (from / length, to.saturating_sub(1).max(from) / length)
}

/// The recording in rows and gaps.
pub fn fold(play: &Play) -> Vec<Part> {
    let length = row_length(play);
    let filled = filled(play, length);
    let last = play.captions.iter().filter_map(|c| c.span).map(|s| s.1).max().unwrap_or(0).max(play.end);
    let (mut parts, mut next) = (Vec::new(), 0);
    for (k, captions) in filled {
        let from = k.saturating_mul(length);
        if from > next {
            parts.push(Part::Gap(next, from));
        }
        next = from.saturating_add(length);
        let to = next.min(last.max(from.saturating_add(1)));
        let look = if quiet(play, from, to, &captions) { Look::quiet(play.captions.len()) } else { play.look };
        parts.push(Part::Row(Row { from, to, length, captions, look }));
    }
    if parts.len() > FEW_ROWS {
        joined(play, parts)
    } else {
        parts
    }
}

/// Runs of quiet rows of one stretch, each as one line.
fn joined(play: &Play, parts: Vec<Part>) -> Vec<Part> {
    let mut all: Vec<Part> = Vec::new();
    let mut run: Vec<Row> = Vec::new();
    for part in parts {
        match part {
            Part::Row(row) if keeper(play, row.from, row.to, &row.captions).is_some() => {
                let first = run.first().and_then(|r| keeper(play, r.from, r.to, &r.captions));
                if first.is_some() && first != keeper(play, row.from, row.to, &row.captions) {
                    all.extend(ended(&mut run));
                }
                run.push(row);
            }
            other => {
                all.extend(ended(&mut run));
                all.push(other);
            }
        }
    }
    all.extend(ended(&mut run));
    all
}

/// The parts of a run: one row stays a row.
fn ended(run: &mut Vec<Row>) -> Vec<Part> {
    if run.len() < 2 {
        return run.drain(..).map(Part::Row).collect();
    }
    let captions: BTreeSet<usize> = run.iter().flat_map(|r| r.captions.iter().copied()).collect();
    let (from, to) = (run[0].from, run[run.len() - 1].to);
    run.clear();
    vec![Part::Shifted { from, to, captions: captions.len() }]
}

/// Whether one stretch keeps the whole row and each of its captions.
fn quiet(play: &Play, from: u64, to: u64, captions: &[usize]) -> bool {
    let shifted = |k: &usize| play.captions[*k].told.fate == Fate::Shifted;
    keeper_of(play, from, to).is_some() && captions.iter().all(shifted)
}

/// The stretch of a quiet row in which no caption is warned of.
fn keeper(play: &Play, from: u64, to: u64, captions: &[usize]) -> Option<usize> {
    let unmarked = captions.iter().all(|&k| play.captions[k].told.warnings.is_empty());
    keeper_of(play, from, to).filter(|_| unmarked && quiet(play, from, to, captions))
}

/// The one stretch that meets a row, where it keeps the whole of it.
fn keeper_of(play: &Play, from: u64, to: u64) -> Option<usize> {
    let mut meeting = play.cut.segments.iter().enumerate().filter(|(_, s)| s.duration > 0 && s.source < to && from < end_of(s));
    let (k, _) = meeting.next().filter(|(_, s)| s.source <= from && to <= end_of(s))?;
    meeting.next().is_none().then_some(k)
}

/// The rows in which something happens, and their captions.
fn filled(play: &Play, length: u64) -> BTreeMap<u64, Vec<usize>> {
    let mut rows = BTreeMap::from([(0, Vec::new()), ((play.end - 1) / length, Vec::new())]);
    for s in play.cut.segments.iter().filter(|s| s.duration > 0) {
        rows.entry(s.source / length).or_default();
        rows.entry((end_of(s) - 1) / length).or_default();
    }
    for (k, caption) in play.captions.iter().enumerate() {
        let Some((first, last)) = caption.span.map(|s| rows_of(s, length)) else { continue };
        for r in (first..=last).take(MOST_PIECES as usize) {
            rows.entry(r).or_default().push(k);
        }
        if last - first >= MOST_PIECES {
            rows.entry(last).or_default().push(k);
        }
    }
    rows
}
