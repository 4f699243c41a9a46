//! `--delay`: every caption comes later, or earlier, before it is retimed. The library is asked through a map whose source starts are moved; no time of a text is changed here.
use crate::args::Args;
use crate::failure::Failure;
use crate::input::Input;
use crate::stderr::say;
use retimer::{ends_at_zero, Kind, Map};

pub struct Shift {
    /// In thousandths of a second.
    delay: i64,
    /// Whether a stretch begins before the delay, so that captions reach only a part of it.
    reached: bool,
}

/// The delay that is asked for, or none.
pub fn of(args: &Args) -> Result<Shift, Failure> {
    let Some(text) = args.one("--delay") else { return Ok(Shift { delay: 0, reached: false }) };
    let read = text.to_str().and_then(thousandths);
    read.map(|delay| Shift { delay, reached: false }).ok_or_else(|| args.usage(format!("--delay is seconds, to the thousandth, such as +5.554 or -0.5, not {}", text.to_string_lossy())))
}

/// Seconds with a sign or without, as thousandths; at most ten digits.
fn thousandths(text: &str) -> Option<i64> {
    let (sign, text) = match text.as_bytes() {
        [b'-', ..] => (-1, &text[1..]),
        [b'+', ..] => (1, &text[1..]),
        _ => (1, text),
    };
    let (whole, part) = text.split_once('.').unwrap_or((text, ""));
    let digits = |t: &str| t.bytes().all(|b| b.is_ascii_digit());
    if whole.is_empty() && part.is_empty() || whole.len() > 10 || part.len() > 3 || !digits(whole) || !digits(part) {
        return None;
    }
    Some(sign * format!("{whole}{part:0<3}").parse::<i64>().ok()?)
}

impl Shift {
    /// The map through which captions fare as if they were delayed.
    pub fn moved(&mut self, map: Map) -> Result<Map, Failure> {
        let delay = i128::from(self.delay) * i128::from(map.timescale());
        self.reached = map.segments().any(|s| i128::from(s.source) * 1_000 < delay);
        map.delayed(self.delay).map_err(|why| Failure::refused(format!("--delay {}: {why}", self.shown())))
    }

    /// A caption that ends at 0 can't meet a stretch of which captions reach only a part, where it would meet the stretch if its times were later: such captions are refused.
    pub fn holds(&self, map: &Map, texts: &[Input], kinds: &[Kind]) -> Result<(), Failure> {
        if !self.reached {
            return Ok(());
        }
        for (text, kind) in texts.iter().zip(kinds) {
            // a text that is refused is told of when it is retimed
            let ending = ends_at_zero(*kind, map.timescale(), &text.bytes).unwrap_or(0);
            if ending > 0 {
                return Err(Failure::refused(format!("--delay {}: {ending} captions of {} end at 0 and can't be delayed: take them out, or let them end later", self.shown(), text.name)));
            }
        }
        Ok(())
    }

    pub fn say(&self) {
        if self.delay != 0 {
            say(format_args!("every caption was delayed by {} s before it was retimed", self.shown()));
        }
    }

    /// Seconds, with a sign.
    fn shown(&self) -> String {
        let (sign, all) = (if self.delay < 0 { '-' } else { '+' }, self.delay.unsigned_abs());
        format!("{sign}{}.{:03}", all / 1_000, all % 1_000)
    }
}

#[cfg(test)]
mod tests {
    use super::*;

    #[test]
    fn seconds() {
        for (text, value) in [("+5.554", 5_554), ("-0.5", -500), ("2", 2_000), (".25", 250), ("3.", 3_000), ("-0", 0), ("9999999999.999", 9_999_999_999_999)] {
            assert_eq!(thousandths(text), Some(value), "{text}");
        }
        for text in ["", "+", "-", ".", "1.2345", "1,5", "--1", "+-1", "1:30", "1e3", "99999999999", "1.-5"] {
            assert_eq!(thousandths(text), None, "{text}");
        }
    }
}
