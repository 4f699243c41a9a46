//! The head of the picture: title, what became of the captions in a sentence, legend; and the file around it all.
use super::bars::{class, marks, shape, Bar, MARK};
use super::clock::brief;
use super::list::{OTHERS, VANISHED};
use super::pen::{rectangle, Pen, EDGE, MARGIN, N};
use super::play::{end_of, Play};
use super::text::{clean, escape, fit, width};
use super::Fate;

/// Colours that stay apart for colour-blind eyes (Okabe and Ito); shapes and patterns tell the same in black and white.
const STYLE: &str = "text{font-size:12px;fill:#222}
.h{font-size:25px;font-weight:bold}
.u{font-size:16px}
.b{font-size:16px;font-weight:bold}
.t{font-size:11px;fill:#444}
.y{font-size:11px;font-weight:bold;fill:#444}
.m{text-anchor:middle}
.r{text-anchor:end}
.o{font-size:11px;fill:#333;paint-order:stroke;stroke:#fff;stroke-width:4px}
.md,.bd{fill:#b34700;font-weight:bold}
.mc{fill:#7a5200}
.ms{fill:#00507d}
.a{fill:url(#cut-away)}
.k{fill:#e2ecf5}
.z{fill:#fff;stroke:#999;stroke-dasharray:2 3}
.j{fill:#e2ecf5;fill-opacity:.7}
.e{stroke:#333;stroke-width:1.4;fill:none}
.v .e{stroke-width:.7}
.g{stroke:#000;stroke-opacity:.16;fill:none}
.js{stroke:#0072b2;stroke-opacity:.55;fill:none}
.jc{stroke:#a86f00;stroke-width:1.4;fill:none}
.s .f{fill:#0072b2}
.s text{fill:#fff}
.c .f{fill:#e69f00;stroke:#5c4000}
.c text,.d text,.p text{fill:#000}
.l{fill:#fff;stroke:#5c4000;stroke-dasharray:4 3}
.d .f{fill:#fff6f0;stroke:#d55e00;stroke-width:2.6}
.x{stroke:#d55e00;stroke-width:3;fill:none}
.p .f{fill:#fff;stroke:#555;stroke-width:1.8;stroke-dasharray:1.8 2.6}
.w{fill:#f0e442;stroke:#000}
g text.n,.n{font-size:10px;font-weight:bold;fill:#000;text-anchor:middle}
.vd{fill:#d55e00;stroke:#fff;stroke-width:.6}
.vc{fill:#e69f00;stroke:#5c4000;stroke-width:.6}
.vw{fill:#000;stroke:#fff;stroke-width:.6}
.vs{fill:#0072b2}";

const HATCH: &str = "<pattern id=\"cut-away\" width=\"7\" height=\"7\" patternUnits=\"userSpaceOnUse\" patternTransform=\"rotate(45)\">\
<rect width=\"7\" height=\"7\" fill=\"#ececec\"/><path d=\"M0 0v7\" stroke=\"#b5b5b5\" stroke-width=\"3\"/></pattern>";

/// The whole file: `pen` is what was drawn, `height` how high it is.
pub fn file(play: &Play, pen: &Pen, height: f64) -> String {
    let size = format!("width=\"{0}\" height=\"{1}\" viewBox=\"0 0 {0} {1}\"", N(play.look.right + EDGE), N(height.ceil()));
    let font = format!("font-family=\"DejaVu Sans, Noto Sans CJK JP, sans-serif\" font-size=\"{}\"", N(play.look.size));
    let bars = format!(".s text,.c text,.d text,.p text{{font-size:{}px}}", play.look.size);
    format!(
        "<svg xmlns=\"http://www.w3.org/2000/svg\" role=\"img\" {size} {font}>\n<title>{}</title>\n<style>{STYLE}\n{bars}</style>\n<defs>{HATCH}</defs>\n\
         <rect width=\"100%\" height=\"100%\" fill=\"#fff\"/>\n{}</svg>\n",
        escape(&clean(play.cut.title)),
        pen.drawn
    )
}

/// A number of things, with commas between thousands.
pub fn count(number: usize, one: &str, more: &str) -> String {
    let digits = number.to_string();
    let mut out = String::new();
    for (k, d) in digits.chars().enumerate() {
        if k > 0 && (digits.len() - k).is_multiple_of(3) {
            out.push(',');
        }
        out.push(d);
    }
    format!("{out} {}", if number == 1 { one } else { more }).trim_end().to_string()
}

/// Draws the head and answers its height.
pub fn draw(play: &Play, pen: &mut Pen) -> f64 {
    pen.words("h", MARGIN, 42.0, &fit(&clean(play.cut.title), 25.0, play.look.right - MARGIN));
    let y = summary(play, pen, 74.0);
    let y = legend(play, pen, y + 20.0);
    let mut numbers: Vec<u64> = play.captions.iter().flat_map(|c| c.told.warnings.iter().copied()).collect();
    numbers.sort_unstable();
    numbers.dedup();
    warnings(play, pen, &numbers, y + 40.0)
}

/// In one line, or where it is too long in two. It answers where the last stands.
fn summary(play: &Play, pen: &mut Pen, y: f64) -> f64 {
    let c = play.counts(0..play.captions.len());
    let there = play.cut.segments.iter().filter(|s| s.duration > 0);
    let (kept, stretches) = there.fold((0u64, 0), |(end, n), s| (end.max(s.output.saturating_add(s.duration)), n + 1));
    let whole = play.cut.recording.map_or("The recording's end is not known".to_string(), |ticks| format!("The recording lasts {}", brief(ticks, play.timescale)));
    let lengths = format!("{whole}, the cut lasts {} in {}.", brief(kept, play.timescale), count(stretches, "stretch", "stretches"));
    let all = count(play.captions.len(), "caption", "captions");
    let dropped = format!("{} dropped", count(c.dropped, "is", "are"));
    let rest = format!("{} shifted, {} clipped, {} passed unchanged; {} warned of.", count(c.shifted, "", ""), count(c.clipped, "", ""), count(c.passed, "", ""), count(c.warned, "is", "are"));
    let room = width(&format!("{lengths} Of {all} {dropped}, {rest}"), 16.0);
    let (next, below) = if room > play.look.right - MARGIN { (format!(" x=\"{}\" dy=\"22\"", N(MARGIN)), 22.0) } else { (String::new(), 0.0) };
    // the counts lead to the lists below
    let dropped = linked(c.dropped > 0, VANISHED, &format!("<tspan class=\"bd\">{dropped}</tspan>"));
    let rest = linked(c.clipped + c.passed + c.warned > 0, OTHERS, &rest);
    pen.add(format_args!("<text class=\"u\" x=\"{}\" y=\"{}\">{lengths} <tspan{next}>Of {all} </tspan>{dropped}, {rest}</text>\n", N(MARGIN), N(y)));
    y + below
}

/// Words that lead to a list, where it has entries.
fn linked(there: bool, list: &str, words: &str) -> String {
    if there {
        format!("<a href=\"#{list}\">{words}</a>")
    } else {
        words.to_string()
    }
}

/// Whether a part of the recording is in no stretch.
fn has_holes(play: &Play) -> bool {
    let mut kept: Vec<(u64, u64)> = play.cut.segments.iter().filter(|s| s.duration > 0).map(|s| (s.source, end_of(s))).collect();
    kept.sort_unstable();
    let reached = kept.into_iter().try_fold(0, |at: u64, (from, to)| if from > at { Err(()) } else { Ok(at.max(to)) });
    reached.map_or(true, |at| at < play.end)
}

/// What colours, shapes and patterns mean, of those that occur. It answers where the last row of them stands.
fn legend(play: &Play, pen: &mut Pen, y: f64) -> f64 {
    let (mut x, mut y) = (MARGIN, y);
    let c = play.counts(0..play.captions.len());
    let grounds = [("k", "kept stretch", play.cut.segments.iter().any(|s| s.duration > 0)), ("a", "cut away", has_holes(play))];
    for (ground, name, _) in grounds.into_iter().filter(|g| g.2) {
        pen.path(ground, &rectangle((x, x + 44.0), y, 18.0));
        pen.line("e", (x, y), (x, y + 18.0));
        pen.line("e", (x + 44.0, y), (x + 44.0, y + 18.0));
        x = name_of(pen, x + 44.0, y, name);
    }
    let fates = [(Fate::Shifted, "shifted: kept whole", c.shifted), (Fate::Clipped, "clipped: the dashed part is lost", c.clipped), (Fate::Dropped, "dropped: nothing is kept", c.dropped), (Fate::Passed, "passed unchanged", c.passed)];
    for (fate, name, _) in fates.into_iter().filter(|f| f.2 > 0) {
        (x, y) = next_place(play, x, y, 44.0, name);
        let solid = if fate == Fate::Clipped { (x, x + 28.0) } else { (x, x + 44.0) };
        let bar = Bar { who: 0, whole: (x, x + 44.0), solid: Some(solid), torn: (false, fate == Fate::Clipped) };
        pen.add(format_args!("<g class=\"{}\">", class(fate)));
        shape(pen, fate, &bar, y, 18.0);
        pen.add(format_args!("</g>\n"));
        x = name_of(pen, x + 44.0, y, name);
    }
    if c.warned == 0 {
        return y;
    }
    let name = "warned, with its number";
    (x, y) = next_place(play, x, y, 16.0, name);
    pen.path("w", &format!("M{} {}h16l-8 -15z", N(x), N(y + 17.0)));
    name_of(pen, x + 16.0, y, name);
    y
}

/// The place of a sign and its name: here, or where there is no room a row below.
fn next_place(play: &Play, x: f64, y: f64, sign: f64, name: &str) -> (f64, f64) {
    let end = x + sign + 7.0 + width(name, 12.0);
    if end > play.look.right {
        (MARGIN, y + 26.0)
    } else {
        (x, y)
    }
}

fn name_of(pen: &mut Pen, x: f64, y: f64, name: &str) -> f64 {
    pen.words("q", x + 7.0, y + 13.5, name);
    x + 7.0 + width(name, 12.0) + 26.0
}

/// What the warnings that occur say. It answers where the head ends.
fn warnings(play: &Play, pen: &mut Pen, numbers: &[u64], y: f64) -> f64 {
    let (mut x, mut y) = (MARGIN, y);
    for &number in numbers {
        let said = match number {
            1 => "its Format line names no Start or no End",
            2 => "it has fewer fields than the Format line",
            3 => "its start was cut off, and it has tags that count from there",
            4 => "its end was cut off, and a part of it is kept further on, without its words",
            5 => "times inside its lines stay as they were",
            _ => "see docs/NUMBERS.md",
        };
        let room = MARK.0 + 7.0 + width(said, 12.0) + 26.0;
        if x + room > play.look.right {
            (x, y) = (MARGIN, y + 22.0);
        }
        marks(pen, &[number], x, y);
        pen.words("q", x + MARK.0 + 6.0, y - 2.0, said);
        x += room;
    }
    y + if numbers.is_empty() { 0.0 } else { 22.0 }
}
