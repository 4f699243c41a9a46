//! The page that says why, in the words of docs/GUIDE.md.
use retimer::{ticks_to_units_ceil, ticks_to_units_floor, Cause, Fate, Kind, Map, Segment};

/// How times of a page are written: of a kind, with a mark before the fraction.
pub struct Page<'m> {
    pub map: &'m Map,
    pub kind: Kind,
    pub mark: char,
}

impl Page<'_> {
    fn time(&self, units: u64) -> String {
        self.kind.time_marked(units, self.mark)
    }

    /// How long so many ticks are, rounded up.
    fn length(&self, ticks: u64) -> String {
        ticks_to_units_ceil(ticks, self.map.timescale(), self.kind).map_or("more than 2^53 ticks".to_string(), |u| self.time(u))
    }

    fn span(&self, from: u64, duration: u64) -> String {
        let start = ticks_to_units_floor(from, self.map.timescale(), self.kind).unwrap_or(0);
        format!("{} to {}", self.time(start), self.length(from.saturating_add(duration)))
    }

    /// `segment 2 of 3 (.. to .. of the recording, .. to .. of the cut)`.
    fn segment(&self, place: usize) -> String {
        let Some(Segment { source, output, duration, .. }) = self.map.segments().nth(place) else { return String::new() };
        let (there, here) = (self.span(source, duration), self.span(output, duration));
        format!("segment {} of {} ({there} of the recording, {here} of the cut)", place + 1, self.map.segments().len())
    }

    fn cut(&self, name: &str, ticks: u64) -> String {
        if ticks == 0 {
            return String::new();
        }
        format!(", at its {name} {ticks} ticks ({}) cut off", self.length(ticks))
    }

    /// What becomes of a caption. Of a dropped one every segment is told, or, where `near`, only the nearest before it and behind it.
    pub fn answer(&self, fate: &Fate, near: bool) -> String {
        match fate {
            Fate::Kept { place, start_cut, end_cut } => {
                format!("  kept in {}{}{}\n", self.segment(*place), self.cut("start", *start_cut), self.cut("end", *end_cut))
            }
            Fate::Dropped(causes) => {
                let mut text = "  dropped: it meets no kept segment\n".to_string();
                let shown = if near { self.nearest(causes) } else { (0..causes.len()).collect() };
                for place in shown {
                    text += &format!("    {} {}\n", self.segment(place), said(causes[place]));
                }
                text
            }
        }
    }

    /// Of the segments before a caption the one that ends last, of those behind it the one that starts first.
    fn nearest(&self, causes: &[Cause]) -> Vec<usize> {
        let of = |cause: Cause| self.map.segments().enumerate().filter(move |(k, _)| causes.get(*k) == Some(&cause));
        let before = of(Cause::EndsBefore).max_by_key(|(_, s)| s.source + s.duration);
        let behind = of(Cause::StartsAfter).min_by_key(|(_, s)| s.source);
        before.into_iter().chain(behind).map(|(k, _)| k).collect()
    }
}

fn said(cause: Cause) -> &'static str {
    match cause {
        Cause::NoLength => "has no length",
        Cause::EndsBefore => "ends at or before the caption's start",
        Cause::StartsAfter => "starts at or after the caption's end",
    }
}
