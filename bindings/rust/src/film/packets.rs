//! What ffprobe prints of a film's packets, as JSON.
use super::json::{Read, Reader};
use super::Fault;

/// A packet: one stored picture.
#[derive(Clone, Copy, Debug, Default)]
pub(super) struct Packet {
    /// Its place in what ffprobe told, from 1.
    pub number: usize,
    /// When its picture is shown, in ticks.
    pub pts: Option<i64>,
    /// When it is decoded, in ticks.
    pub dts: Option<i64>,
    pub duration: Option<i64>,
    pub key: bool,
    /// The film says that it is decoded and not shown.
    pub hidden: bool,
}

#[derive(Default)]
pub(super) struct Told {
    pub packets: Vec<Packet>,
    pub time_base: String,
    pub rate: String,
    streams: usize,
}

/// The packets and the stream of ffprobe's output.
pub(super) fn read(json: &[u8]) -> Result<Told, Fault> {
    let mut told = Told::default();
    let mut reader = Reader::new(json);
    let done = reader.object(&mut |r, name| match name {
        b"packets" => r.array(&mut |r| {
            let number = told.packets.len() + 1;
            told.packets.push(packet(r, number)?);
            Ok(())
        }),
        b"streams" => r.array(&mut |r| stream(r, &mut told)),
        _ => r.skip(),
    });
    done.and_then(|()| reader.end()).map_err(Fault::NotJson)?;
    if told.streams == 0 {
        return Err(Fault::NoStream);
    }
    Ok(told)
}

fn packet(reader: &mut Reader<'_>, number: usize) -> Read<Packet> {
    let mut packet = Packet { number, ..Packet::default() };
    reader.object(&mut |r, name| {
        match name {
            b"pts" => packet.pts = r.integer()?,
            b"dts" => packet.dts = r.integer()?,
            b"duration" => packet.duration = r.integer()?,
            b"flags" => {
                let flags = r.string()?;
                (packet.key, packet.hidden) = (flags.starts_with(b"K"), flags.contains(&b'D'));
            }
            _ => r.skip()?,
        }
        Ok(())
    })?;
    Ok(packet)
}

/// A stream; of several the first counts, which is the one whose packets were asked for.
fn stream(reader: &mut Reader<'_>, told: &mut Told) -> Read<()> {
    told.streams += 1;
    let first = told.streams == 1;
    reader.object(&mut |r, name| match name {
        b"time_base" if first => r.string().map(|s| told.time_base = String::from_utf8_lossy(s).into_owned()),
        b"r_frame_rate" if first => r.string().map(|s| told.rate = String::from_utf8_lossy(s).into_owned()),
        _ => r.skip(),
    })
}

/// Ticks a second, of a time base 1/T.
pub(super) fn timescale(time_base: &str) -> Result<u32, Fault> {
    let ticks = time_base.strip_prefix("1/").and_then(|t| t.parse().ok());
    ticks.filter(|t| (1..=1_000_000_000).contains(t)).ok_or_else(|| Fault::TimeBase(time_base.to_string()))
}

/// The frame rate as a fraction, 0/0 where none is told; nothing that is proved reads it.
pub(super) fn rate(text: &str) -> (u32, u32) {
    let parts = text.split_once('/').and_then(|(n, d)| Some((n.parse().ok()?, d.parse().ok()?)));
    parts.unwrap_or_default()
}
