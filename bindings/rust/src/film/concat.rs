//! The list by which ffmpeg's concat demuxer cuts a film without encoding it anew.
use super::{order, Fault, Film};
use crate::{Map, Segment};

/// A stretch of the list.
struct Part {
    /// Its place in the map, from 1.
    number: usize,
    /// Its first packet, and the first behind it.
    packets: (usize, usize),
    /// The time that ffmpeg is to look for, in ticks of the film.
    inpoint: i64,
    /// Where that time lies in the cut, in ticks.
    at: u64,
}

/// A time in millionths of a second, as lists have it.
fn micros(micros: i128) -> String {
    let sign = if micros < 0 { "-" } else { "" };
    format!("{sign}{}.{:06}", micros.unsigned_abs() / 1_000_000, micros.unsigned_abs() % 1_000_000)
}

impl Film {
    /// The list of a map's stretches, for `ffmpeg -f concat`; `name` is the film's name as it is found from the list's folder.
    ///
    /// Inpoint is the time of a stretch's first frame, rounded up, or what is needed for ffmpeg to find its key picture by the time at which that is decoded. Outpoint lies halfway between the times at which
    /// the last packet that is kept and the one behind it are decoded, since ffmpeg compares those. Duration says where the next stretch begins in the cut, so that no rounding adds up.
    pub fn concat(&self, map: &Map, name: &str) -> Result<String, Fault> {
        let parts = self.parts(map)?;
        let file = format!("file '{}'\n", name.replace('\'', "'\\''"));
        let mut text = "ffconcat version 1.0\n".to_string();
        if let Some(at) = parts.first().map(|p| p.at).filter(|at| *at > 0) {
            // nothing is taken from this entry: it moves the first stretch to 0
            let before = i128::from(self.dts(0)?) * 1_000_000 / i128::from(self.timescale) - 1_000_000;
            text += &format!("{file}outpoint {}\nduration {}\n", micros(before), micros(self.rounded(at)));
        }
        for (k, part) in parts.iter().enumerate() {
            text += &format!("{file}inpoint {}\n", micros(self.rounded_up(part.inpoint)));
            if part.packets.1 < self.frames() {
                text += &format!("outpoint {}\n", micros(self.halfway(part.packets.1)?));
            }
            if let Some(next) = parts.get(k + 1) {
                text += &format!("duration {}\n", micros(self.rounded(next.at) - self.rounded(part.at)));
            }
        }
        Ok(text)
    }

    /// The stretches of a map, counted from 1, that ffmpeg may begin too late: a key picture further on is found by the same time.
    pub fn crowded(&self, map: &Map) -> Result<Vec<usize>, Fault> {
        let late = |p: &Part| {
            let behind = self.packets[p.packets.0 + 1..].iter();
            behind.take_while(|p2| p2.dts.is_some_and(|dts| dts.saturating_add(self.lead()) <= p.inpoint)).any(|p2| p2.key)
        };
        Ok(self.parts(map)?.iter().filter(|p| late(p)).map(|p| p.number).collect())
    }

    fn parts(&self, map: &Map) -> Result<Vec<Part>, Fault> {
        map.segments().enumerate().filter(|(_, s)| s.frames > 0).map(|(k, s)| self.part(k + 1, &s)).collect()
    }

    fn part(&self, number: usize, segment: &Segment) -> Result<Part, Fault> {
        let packets = self.holds(segment).ok_or(Fault::NotItsMap(number))?;
        let shown = self.order.times[segment.start_frame as usize];
        // some containers are searched by the times at which packets are decoded, moved by the lead of the first
        let decoded = self.packets[packets.0].dts.map(|dts| dts.saturating_add(self.lead()));
        let inpoint = decoded.map_or(shown, |d| d.max(shown));
        Ok(Part { number, packets, inpoint, at: segment.output + order::between(shown, inpoint) })
    }

    /// Whether the film shows a segment's frames where the map has them, all stored in a row: then the first packet, and the first behind them.
    fn holds(&self, segment: &Segment) -> Option<(usize, usize)> {
        let (start, end) = (usize::try_from(segment.start_frame).ok()?, usize::try_from(segment.end_frame).ok()?);
        if start >= end || end > self.frames() || (end - start) as u64 != segment.frames {
            return None;
        }
        let placed = self.time(start) == segment.source && self.time(end) - self.time(start) == segment.duration;
        let first = self.order.shown[start];
        let stored = self.order.place[first..].iter().take(end - start).all(|i| (start..end).contains(i));
        (placed && stored).then_some((first, first + (end - start)))
    }

    fn dts(&self, d: usize) -> Result<i64, Fault> {
        self.packets[d].dts.ok_or(Fault::NoDecodeTime(self.packets[d].number))
    }

    /// How long before the first frame is shown the first packet is decoded, in ticks.
    fn lead(&self) -> i64 {
        self.packets[0].dts.map_or(0, |dts| self.first().saturating_sub(dts)).max(0)
    }

    /// Halfway between the times at which packet `d` and the one before it are decoded, in millionths of a second.
    fn halfway(&self, d: usize) -> Result<i128, Fault> {
        let sum = i128::from(self.dts(d - 1)?) + i128::from(self.dts(d)?);
        Ok((sum * 500_000).div_euclid(self.timescale.into()))
    }

    fn rounded_up(&self, ticks: i64) -> i128 {
        -(-i128::from(ticks) * 1_000_000).div_euclid(self.timescale.into())
    }

    /// Ticks of the cut in millionths of a second, to the nearest.
    fn rounded(&self, ticks: u64) -> i128 {
        (i128::from(ticks) * 2_000_000 + i128::from(self.timescale)).div_euclid(2 * i128::from(self.timescale))
    }
}
