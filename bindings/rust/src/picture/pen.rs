//! Elements of SVG, written one after another.
use super::text::escape;
use std::fmt::{Arguments, Display, Formatter, Result, Write};

/// Where labels and texts begin.
pub const MARGIN: f64 = 14.0;
/// Where times begin; left of it stand labels.
pub const LEFT: f64 = 116.0;
/// The room between where times end and the edge of the page.
pub const EDGE: f64 = 24.0;

/// A coordinate with one decimal at most.
#[derive(Clone, Copy)]
pub struct N(pub f64);

impl Display for N {
    fn fmt(&self, f: &mut Formatter<'_>) -> Result {
        let tenths = (self.0 * 10.0).round() as i64;
        let sign = if tenths < 0 { "-" } else { "" };
        match (tenths.unsigned_abs() / 10, tenths.unsigned_abs() % 10) {
            (whole, 0) => write!(f, "{sign}{whole}"),
            (whole, rest) => write!(f, "{sign}{whole}.{rest}"),
        }
    }
}

/// The path of a rectangle.
pub fn rectangle(x: (f64, f64), y: f64, height: f64) -> String {
    let width = N(x.1 - x.0);
    format!("M{} {}h{width}v{}h-{width}z", N(x.0), N(y), N(height))
}

/// What has been drawn so far.
#[derive(Default)]
pub struct Pen {
    pub drawn: String,
}

impl Pen {
    /// Adds a piece as it is.
    pub fn add(&mut self, piece: Arguments) {
        self.drawn.write_fmt(piece).expect("a String takes all");
    }

    /// Words at a place; the class tells their look.
    pub fn words(&mut self, class: &str, x: f64, y: f64, words: &str) {
        self.add(format_args!("<text class=\"{class}\" x=\"{}\" y=\"{}\">{}</text>\n", N(x), N(y), escape(words)));
    }

    /// Words that lead to a part of the picture.
    pub fn link(&mut self, to: &str, class: &str, x: f64, y: f64, words: &str) {
        self.add(format_args!("<a href=\"#{to}\"><text class=\"{class}\" x=\"{}\" y=\"{}\">{}</text></a>\n", N(x), N(y), escape(words)));
    }

    /// A path, unless it is empty.
    pub fn path(&mut self, class: &str, path: &str) {
        if !path.is_empty() {
            self.add(format_args!("<path class=\"{class}\" d=\"{path}\"/>\n"));
        }
    }

    /// A straight line.
    pub fn line(&mut self, class: &str, from: (f64, f64), to: (f64, f64)) {
        self.path(class, &format!("M{} {}L{} {}", N(from.0), N(from.1), N(to.0), N(to.1)));
    }

    /// What `body` draws, moved down by `y`; it answers its height.
    pub fn below(&mut self, y: f64, body: impl FnOnce(&mut Pen) -> f64) -> f64 {
        self.add(format_args!("<g transform=\"translate(0 {})\">\n", N(y)));
        let height = body(self);
        self.add(format_args!("</g>\n"));
        height
    }
}
