//! Words as SVG text: cleaned, escaped, measured, broken into lines.

/// The most characters of a caption's words that are kept.
const MOST_WORDS: usize = 120;
/// Fewer characters than this in front of the dots say nothing.
const FEWEST: usize = 6;

/// The words on one line: control characters and runs of white space as one space, what XML can't hold left out, not too long.
pub fn clean(words: &str) -> String {
    let mut out = String::new();
    let mut count = 0;
    for c in words.chars().filter(|&c| c != '\u{fffe}' && c != '\u{ffff}') {
        let space = c.is_control() || c.is_whitespace();
        if space && (out.is_empty() || out.ends_with(' ')) {
            continue;
        }
        if count == MOST_WORDS {
            return out.trim_end().to_string() + "…";
        }
        out.push(if space { ' ' } else { c });
        count += 1;
    }
    out.truncate(out.trim_end().len());
    out
}

/// The text as XML text or attribute.
pub fn escape(text: &str) -> String {
    let mut out = String::with_capacity(text.len());
    for c in text.chars() {
        match c {
            '<' => out.push_str("&lt;"),
            '>' => out.push_str("&gt;"),
            '&' => out.push_str("&amp;"),
            '"' => out.push_str("&quot;"),
            _ => out.push(c),
        }
    }
    out
}

/// Whether a character is as wide as it is high.
fn wide(c: char) -> bool {
    matches!(c, '\u{1100}'..='\u{115f}' | '\u{2e80}'..='\u{a4cf}' | '\u{ac00}'..='\u{d7a3}' | '\u{f900}'..='\u{faff}'
        | '\u{fe30}'..='\u{fe6f}' | '\u{ff00}'..='\u{ff60}' | '\u{ffe0}'..='\u{ffe6}' | '\u{1f300}'..='\u{1faff}' | '\u{20000}'..='\u{3fffd}')
}

/// The width of a character as a part of the font's size, in a wide sans-serif.
fn part_of_size(c: char) -> f64 {
    match c {
        '\u{300}'..='\u{36f}' | '\u{200b}'..='\u{200f}' => 0.0,
        'i' | 'j' | 'l' | 'I' | '\'' | '.' | ',' | ':' | ';' | '!' | ' ' | '|' => 0.34,
        'f' | 't' | 'r' | '(' | ')' | '[' | ']' | '-' | '/' | '"' => 0.44,
        'm' | 'w' | 'M' | 'W' | '@' | '%' | '…' => 1.0,
        'A'..='Z' => 0.74,
        _ if wide(c) => 1.0,
        _ if c.is_ascii() => 0.64,
        _ => 0.72,
    }
}

/// About how wide a text is in a font of this size.
pub fn width(text: &str, size: f64) -> f64 {
    text.chars().map(part_of_size).sum::<f64>() * size
}

/// The text where there is room for it, else its beginning and three dots, else nothing.
pub fn fit(text: &str, size: f64, room: f64) -> String {
    if width(text, size) <= room {
        return text.to_string();
    }
    let mut used = width("…", size);
    let mut out = String::new();
    for c in text.chars() {
        used += part_of_size(c) * size;
        if used > room {
            break;
        }
        out.push(c);
    }
    let wide_ones = out.chars().filter(|&c| wide(c)).count();
    if out.chars().count() + wide_ones < FEWEST {
        String::new()
    } else {
        out.trim_end().to_string() + "…"
    }
}

/// The text in at most `most` lines.
pub fn lines(text: &str, size: f64, room: f64, most: usize) -> Vec<String> {
    let (mut rest, mut out) = (text, Vec::new());
    while !rest.is_empty() && out.len() < most {
        let last = out.len() + 1 == most;
        let end = if last { rest.len() } else { first_line(rest, size, room) };
        let line = fit(&rest[..end], size, room);
        if line.is_empty() {
            break;
        }
        out.push(line);
        rest = rest[end..].trim_start();
    }
    out
}

/// Where the first line ends: before the last space or wide character that fits; the whole text where it fits or has no such place.
fn first_line(text: &str, size: f64, room: f64) -> usize {
    let (mut used, mut end) = (0.0, 0);
    for (place, c) in text.char_indices() {
        if c == ' ' || wide(c) && !"。、！？」』）".contains(c) {
            end = place;
        }
        used += part_of_size(c) * size;
        if used > room && end > 0 {
            return end;
        }
    }
    text.len()
}
