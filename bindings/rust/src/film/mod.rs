//! Films: the frame sheet of a film from what ffprobe tells of its packets, and the list by which ffmpeg cuts it. docs/SHEET.md, "From a film", says the rules and why.
mod concat;
mod fault;
mod json;
mod order;
mod packets;

pub use fault::Fault;

use crate::{Frame, Sheet, MOST_FRAMES};
use order::Order;
use packets::Packet;

/// What is asked of ffprobe, before the film's name: [`Film::from_ffprobe`] reads its answer.
pub const FFPROBE: [&str; 8] = ["-v", "error", "-select_streams", "V:0", "-show_entries", "stream=time_base,r_frame_rate:packet=pts,dts,duration,flags", "-of", "json"];

/// The frames of a film: when each is shown, and where it is stored.
///
/// ```
/// use retimer::film::Film;
/// // three pictures, stored in the order 0, 2, 1
/// let told = br#"{ "packets": [ {"pts": 0, "flags": "K_"}, {"pts": 80, "duration": 40, "flags": "__"}, {"pts": 40, "flags": "__"} ],
///     "streams": [ {"time_base": "1/1000", "r_frame_rate": "25/1"} ] }"#;
/// let film = Film::from_ffprobe(told)?;
/// let sheet = film.sheet(false)?;
/// assert_eq!(sheet.durations, [40, 40, 40]);
/// assert_eq!(sheet.frames.iter().map(|f| (f.decode, f.sync)).collect::<Vec<_>>(), [(0, true), (2, false), (1, false)]);
/// # Ok::<(), retimer::film::Fault>(())
/// ```
#[derive(Clone, Debug)]
pub struct Film {
    timescale: u32,
    rate: (u32, u32),
    /// As they are stored, without those that are never shown.
    packets: Vec<Packet>,
    order: Order,
    hidden: usize,
}

impl Film {
    /// A film from what ffprobe prints of its video stream, asked by [`FFPROBE`].
    pub fn from_ffprobe(json: &[u8]) -> Result<Film, Fault> {
        let told = packets::read(json)?;
        let (timescale, rate) = (packets::timescale(&told.time_base)?, packets::rate(&told.rate));
        let all = told.packets.len();
        let packets: Vec<Packet> = told.packets.into_iter().filter(|p| !p.hidden).collect();
        if packets.len() > MOST_FRAMES {
            return Err(Fault::TooManyFrames(packets.len()));
        }
        let order = Order::of(timescale, &packets)?;
        let hidden = all - packets.len();
        Ok(Film { timescale, rate, packets, order, hidden })
    }

    /// Ticks a second.
    pub fn timescale(&self) -> u32 {
        self.timescale
    }

    /// How many frames are shown.
    pub fn frames(&self) -> usize {
        self.packets.len()
    }

    /// How many packets are left out, since the film marks their pictures as not shown.
    pub fn hidden(&self) -> usize {
        self.hidden
    }

    /// When the first frame is shown, in ticks of the film; the sheet counts from there.
    pub fn first(&self) -> i64 {
        self.order.times[0]
    }

    /// How long the film is, in ticks.
    pub fn length(&self) -> u64 {
        self.time(self.frames())
    }

    /// How many frames are key pictures.
    pub fn keys(&self) -> usize {
        self.packets.iter().filter(|p| p.key).count()
    }

    /// The ticks from the first frame to frame `i`, or to the end.
    fn time(&self, i: usize) -> u64 {
        order::between(self.order.times[0], self.order.times[i])
    }

    /// Whether each picture, as they are stored, is a key picture behind which none is stored that is shown before it: a cut can begin there.
    fn clean(&self) -> Vec<bool> {
        let mut least = usize::MAX;
        let mut clean = vec![false; self.frames()];
        for d in (0..self.frames()).rev() {
            clean[d] = self.packets[d].key && self.order.place[d] < least;
            least = least.min(self.order.place[d]);
        }
        clean
    }

    /// The film's frame sheet. A frame lasts until the next one is shown. A cut can begin at a key picture behind which no frame is stored that is shown before it; with `open_gop` at
    /// every key picture.
    pub fn sheet(&self, open_gop: bool) -> Result<Sheet, Fault> {
        let clean = self.clean();
        let frame = |d: &usize| Frame { decode: *d as u32, sync: if open_gop { self.packets[*d].key } else { clean[*d] } };
        let frames = self.order.shown.iter().map(frame).collect();
        let durations = self.order.place.iter().map(|i| order::between(self.order.times[*i], self.order.times[*i + 1])).collect();
        let sheet = Sheet { timescale: self.timescale, rate: self.rate, frames, durations };
        Ok(sheet)
    }
}

/// Ticks as seconds, to the thousandth.
///
/// ```
/// assert_eq!(retimer::film::seconds(-1_001, 24_000), "-0.042");
/// ```
pub fn seconds(ticks: i64, timescale: u32) -> String {
    let per = 2 * u128::from(timescale.max(1));
    let millis = (u128::from(ticks.unsigned_abs()) * 2_000 + per / 2) / per;
    let sign = if ticks < 0 && millis > 0 { "-" } else { "" };
    format!("{sign}{}.{:03}", millis / 1_000, millis % 1_000)
}
