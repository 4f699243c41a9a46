//! `bobbincrag census`: how a caption of a length would fare at every start.
use crate::args::Args;
use crate::cut;
use crate::failure::Failure;
use crate::input;
use crate::output;
use retimer::{census, Kind};

pub fn run(args: &Args) -> Result<(), Failure> {
    cut::named(args)?;
    let kind = input::named_kind(args)?.unwrap_or(Kind::Ass);
    let [length, span] = args.exactly("LENGTH and SPAN, which are times: 2.5, 1:30, 1:00:00")?;
    let read = |time: &str| units(kind, time).ok_or_else(|| args.usage(format!("{time} is no time: say 2.5, 1:30 or 1:00:00")));
    let (length, count) = (read(length)?, read(span)?);
    let cut = cut::read(args)?;
    let starts = census(&cut.map, kind, length, count).map_err(|refused| match refused.number() {
        16 => Failure::refused(format!("{refused} (LENGTH and SPAN are at most {}:00:00)", 36_000_000 / kind.units() / 3600)),
        _ => Failure::refused(refused),
    })?;
    let time = |units| kind.time_marked(units, '.');
    let sentence =
        format!("Of {count} starts, one every 1/{} s in the first {}, a caption of {} stays whole at {}, is shortened at {} and vanishes at {}.\n", kind.units(), time(count), time(length), starts.shifted, starts.clipped, starts.dropped);
    output::print(sentence.as_bytes())
}

/// Seconds, or minutes or hours before them, in units; one that is too large for the question is the largest number, which is refused (16).
fn units(kind: Kind, time: &str) -> Option<u64> {
    let digits = |text: &str| (!text.is_empty() && text.bytes().all(|b| b.is_ascii_digit())).then(|| text.parse().unwrap_or(u64::MAX));
    let width = if kind.units() == 100 { 2 } else { 3 };
    let (whole, part) = match time.split_once('.') {
        Some((whole, part)) if part.len() <= width => (whole, digits(part)? * 10u64.pow((width - part.len()) as u32)),
        Some(_) => return None,
        None => (time, 0),
    };
    let parts = whole.split(':').map(digits).collect::<Option<Vec<u64>>>()?;
    if parts.len() > 3 {
        return None;
    }
    let seconds = parts.iter().fold(0u64, |sum, n| sum.saturating_mul(60).saturating_add(*n));
    Some(seconds.saturating_mul(kind.units()).saturating_add(part))
}
