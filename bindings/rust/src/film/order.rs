//! The order in which the frames of a film are shown, and when.
use super::packets::Packet;
use super::Fault;

#[derive(Clone, Debug)]
pub(super) struct Order {
    /// As they are shown: the place of each frame among the stored ones.
    pub shown: Vec<usize>,
    /// As they are stored: the place of each among the shown ones.
    pub place: Vec<usize>,
    /// When each frame is shown, in ticks of the film, and last when the film ends.
    pub times: Vec<i64>,
}

/// The ticks from one time to a later one.
pub(super) fn between(a: i64, b: i64) -> u64 {
    b.wrapping_sub(a) as u64
}

impl Order {
    pub fn of(timescale: u32, packets: &[Packet]) -> Result<Order, Fault> {
        if let Some(packet) = packets.iter().find(|p| p.pts.is_none()) {
            return Err(Fault::NoTime(packet.number));
        }
        let pts = |d: usize| packets[d].pts.unwrap_or_default();
        let mut shown: Vec<usize> = (0..packets.len()).collect();
        shown.sort_by_key(|d| pts(*d));
        if let Some(two) = shown.windows(2).find(|w| pts(w[0]) == pts(w[1])) {
            return Err(Fault::SameTime { first: packets[two[0]].number, second: packets[two[1]].number, ticks: pts(two[0]), timescale });
        }
        let mut times: Vec<i64> = shown.iter().map(|d| pts(*d)).collect();
        let (last, before) = (shown.last().ok_or(Fault::NoFrames)?, times.len().checked_sub(2).map(|k| times[k]));
        let own = packets[*last].duration.filter(|d| *d > 0);
        let duration = own.or(before.map(|b| pts(*last).saturating_sub(b))).ok_or(Fault::NoLength)?;
        times.push(pts(*last).checked_add(duration).ok_or(Fault::NoLength)?);
        let mut place = vec![0; shown.len()];
        shown.iter().enumerate().for_each(|(i, d)| place[*d] = i);
        Ok(Order { shown, place, times })
    }
}
