//! Texts: at once, by feeds of 1,024 bytes and of one.
use crate::clock::medians;
use crate::here::{by_feed, by_text, lent, TIMESCALE};
use crate::segmap::Segment;
use crate::table::Table;
use crate::{subtitle, words};
use std::hint::black_box;

fn segments(map: &[u64]) -> Vec<Segment> {
    map.chunks(6)
        .map(|c| Segment { source_start_frame: c[0] as u32, source_end_frame: c[1] as u32, source_start_dts: c[2], frame_count: c[3] as u32, output_start: c[4], duration: c[5] })
        .collect()
}

/// The Rust's text, with its test for UTF-8.
pub fn remap(kind: u32, map: &[Segment], text: &[u8]) -> String {
    let text = std::str::from_utf8(text).unwrap();
    let done = if kind == 0 { subtitle::remap_ass(text, map, TIMESCALE) } else { subtitle::remap_srt(text, map, TIMESCALE) };
    done.unwrap().content
}

/// Ratios of text and feed to the Rust, which must make the same bytes of the text.
fn beside(kind: u32, map: &[u64], text: &[u8], count: usize) -> (f64, f64) {
    let rust = segments(map);
    let (mut a, mut b) = (lent(text), lent(text));
    let same = remap(kind, &rust, text);
    assert_eq!(by_text(kind, map, text, &mut a), (0, same.len()));
    assert_eq!(by_feed(kind, map, text, &mut b, 1024), (0, same.len()));
    assert!(a.out[..same.len()] == *same.as_bytes() && b.out[..same.len()] == *same.as_bytes());
    let t = medians(
        count,
        &mut [
            &mut || drop(black_box(remap(kind, &rust, black_box(text)))),
            &mut || { black_box(by_text(kind, map, black_box(text), &mut a)); },
            &mut || { black_box(by_feed(kind, map, black_box(text), &mut b, 1024)); },
        ],
    );
    (t[1] / t[0], t[2] / t[0])
}

pub fn ordinary(table: &mut Table) {
    for (kind, name, whole, fed) in [(0, "ASS", 0.5, 0.65), (1, "SRT", 0.6, 0.85)] {
        for (when, captions) in [("kept", 3000), ("late", 9000)] {
            for count in [30, 1024] {
                let (map, text) = (words::map(count), words::text(kind, captions));
                let (a, b) = beside(kind, &map, &text, 31);
                table.row(&format!("{name} text, {when}, {count} segments"), a, "", Some(whole));
                table.row(&format!("{name} feed, {when}, {count} segments"), b, "", Some(fed));
            }
        }
    }
    let (map, text) = (words::map(30), words::text(2, 3000));
    let (mut a, mut b) = (lent(&text), lent(&text));
    let t = medians(31, &mut [&mut || { black_box(by_text(2, &map, &text, &mut a)); }, &mut || { black_box(by_feed(2, &map, &text, &mut b, 1024)); }]);
    table.row("WebVTT text, kept, 30 segments, ns a byte", t[0] * 1e9 / text.len() as f64, "", None);
    table.row("WebVTT feed, kept, 30 segments, ns a byte", t[1] * 1e9 / text.len() as f64, "", None);
}

pub fn one_byte(table: &mut Table) {
    let map = words::map(30);
    for (kind, name) in [(0, "ASS"), (1, "SRT")] {
        let text = &words::text(kind, 3000)[..20_000];
        let mut to = lent(text);
        let t = medians(9, &mut [&mut || { black_box(by_feed(kind, &map, text, &mut to, 1)); }]);
        table.row(&format!("{name} fed byte by byte, a call"), t[0] * 1e6 / text.len() as f64, " us", Some(1.0));
    }
    let block = format!("1\n00:00:01,000 --> 00:00:02,000\n{}", "x\n".repeat(2000));
    let mut to = lent(block.as_bytes());
    let t = medians(5, &mut [&mut || { black_box(by_feed(1, &map, block.as_bytes(), &mut to, 1)); }]);
    table.row("a block of short lines fed byte by byte, a call", t[0] * 1e6 / block.len() as f64, " us", Some(10.0));
}

pub fn small(table: &mut Table) {
    let map = words::map(30);
    let line = format!("1\n00:00:01,000 --> 00:00:02,000\n{}\n\n", "x".repeat(3000));
    let slashes = format!("{}Dialogue: 0,0:00:01.00,0:00:02.00,Default,,0,0,0,,{}\n", words::ASS_HEAD, "\\".repeat(3000));
    let block = format!("1\n00:00:01,000 --> 00:00:02,000\n{}\n", "x\n".repeat(2000));
    for (kind, name, text, whole, fed) in [(1, "SRT line of 3,000 bytes", line, 6.0, 26.0), (0, "ASS of 3,000 backslashes", slashes, 0.8, 13.0), (1, "SRT block of 2,000 lines", block, 0.8, 2.0)] {
        let (a, b) = beside(kind, &map, text.as_bytes(), 401);
        table.row(&format!("{name}, text"), a, "", Some(whole));
        table.row(&format!("{name}, feed"), b, "", Some(fed));
    }
}
