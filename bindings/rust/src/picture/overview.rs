//! The whole recording in one row, where it is folded into many: the cut, and where captions vanished, were cut or are warned of.
use super::fold::Row;
use super::ground::{cut, joins, labels, recording, Frame};
use super::head::count;
use super::list::{OTHERS, VANISHED};
use super::pen::{rectangle, Pen, LEFT, MARGIN};
use super::place::{pieces, Scale};
use super::play::{Caption, Play};
use super::Fate;

/// Where the first strip stands, and the height of each: what vanished has most room.
const TOP: f64 = 46.0;
const STRIPS: [f64; 4] = [28.0, 16.0, 16.0, 16.0];

/// Draws it and answers its height.
pub fn draw(play: &Play, pen: &mut Pen) -> f64 {
    let longest = play.cut.segments.iter().map(|s| s.output.saturating_add(s.duration)).max().unwrap_or(0).max(play.end);
    let row = Row { from: 0, to: play.end, length: longest, captions: Vec::new(), look: play.look };
    let scale = Scale::of(&row);
    let pieces = pieces(play, &row, scale);
    let foot = TOP + STRIPS.iter().sum::<f64>();
    let frame = Frame { top: TOP, foot, head: foot + 48.0, end: foot + 68.0 };
    pen.words("b", MARGIN, 16.0, "The whole recording");
    pen.add(format_args!("<g class=\"v\">"));
    recording(play, pen, scale, play.end, &pieces, &frame);
    joins(pen, scale, &pieces, &frame);
    cut(play, pen, scale, &pieces, &frame);
    pen.add(format_args!("</g>\n"));
    labels(play, pen, scale, play.end, &pieces, &frame);
    strips(play, pen, scale);
    pen.words("y", MARGIN, TOP - 6.0, "recording");
    pen.words("y", MARGIN, frame.end + 15.0, "cut");
    pen.words("b", MARGIN, frame.end + 56.0, "Row by row");
    frame.end + 70.0
}

/// A strip for each fate, so that place tells it as well as colour.
fn strips(play: &Play, pen: &mut Pen, scale: Scale) {
    let c = play.counts(0..play.captions.len());
    let of = |fate: Fate| move |c: &Caption| c.told.fate == fate;
    strip(play, pen, scale, 0, ("md", "vd", c.dropped, "dropped"), of(Fate::Dropped));
    strip(play, pen, scale, 1, ("mc", "vc", c.clipped, "clipped"), of(Fate::Clipped));
    strip(play, pen, scale, 2, ("mw", "vw", c.warned, "warned"), |c| !c.told.warnings.is_empty());
    strip(play, pen, scale, 3, ("ms", "vs", c.shifted, "shifted"), of(Fate::Shifted));
}

/// One strip: marked wherever there is such a caption.
fn strip(play: &Play, pen: &mut Pen, scale: Scale, place: usize, look: (&str, &str, usize, &str), which: impl Fn(&Caption) -> bool) {
    let (y, height) = (TOP + STRIPS[..place].iter().sum::<f64>(), STRIPS[place]);
    let right = play.look.right;
    let of = |(from, to): (u64, u64)| {
        let from = scale.x(from).min(right - 3.0);
        (from, scale.x(to).clamp(from + 3.0, right))
    };
    let mut spans: Vec<(f64, f64)> = play.captions.iter().filter(|c| which(c)).filter_map(|c| c.span).map(of).collect();
    spans.sort_by(|a, b| a.0.total_cmp(&b.0));
    let mut joined: Vec<(f64, f64)> = Vec::new();
    for s in spans {
        match joined.last_mut().filter(|last| s.0 <= last.1 + 0.5) {
            Some(last) => last.1 = last.1.max(s.1),
            None => joined.push(s),
        }
    }
    let path: String = joined.iter().map(|&x| rectangle(x, y + 2.0, height - 4.0)).collect();
    pen.path(look.1, &path);
    let (words, at) = (count(look.2, look.3, look.3), y + height / 2.0 + 4.5);
    match place {
        // what was shifted stands in no list
        3 => pen.words(look.0, MARGIN, at, &words),
        _ if look.2 == 0 => pen.words(look.0, MARGIN, at, &words),
        0 => pen.link(VANISHED, look.0, MARGIN, at, &words),
        _ => pen.link(OTHERS, look.0, MARGIN, at, &words),
    }
    pen.line("g", (LEFT, y), (right, y));
}
