//! JSON of a map at its limits: the longest text, and long texts that are no map's.
use crate::clock::medians;
use crate::maps::{retimer_map_read, retimer_map_write};
use crate::segmap::{Segment, SegmentMap};
use crate::table::Table;
use std::hint::black_box;

/// The text of a map with the largest other numbers.
fn written(map: &[u64], path: &[u8]) -> Vec<u8> {
    let (mut text, mut size) = (vec![0; 255_141], 0);
    let most = u32::MAX;
    let number = unsafe { retimer_map_write(map.as_ptr(), map.len(), 1_000_000_000, most, most, path.as_ptr(), path.len(), most, text.as_mut_ptr(), text.len(), &mut size) };
    assert_eq!((number, size), (0, 255_141));
    text
}

/// The number of a text, its map and its path.
fn read(text: &[u8]) -> (u32, Vec<u64>, Vec<u8>) {
    let (mut map, mut path, mut told, mut counts) = (vec![0; 6144], vec![0; 1024], [0; 4], [0; 2]);
    let [a, b, c, d] = &mut told;
    let [n, m] = &mut counts;
    let number = unsafe { retimer_map_read(text.as_ptr(), text.len(), map.as_mut_ptr(), map.len(), path.as_mut_ptr(), path.len(), a, b, c, d, n, m) };
    map.truncate(counts[0] as usize);
    path.truncate(counts[1] as usize);
    (number, map, path)
}

/// The Rust's map with the longest text, and its numbers.
fn longest(path: &str) -> (SegmentMap, Vec<u64>) {
    let (frame, tick) = (u32::MAX, 1u64 << 52);
    let one = || Segment { source_start_frame: frame, source_end_frame: frame, source_start_dts: tick, frame_count: frame, output_start: tick, duration: tick };
    let segments = (0..1024).map(|_| one()).collect();
    let rust = SegmentMap { video_timescale: 1_000_000_000, frame_rate_num: frame, frame_rate_den: frame, input: path.into(), total_frames: frame, segments };
    let f = u64::from(frame);
    (rust, [f, f, tick, f, tick, tick].repeat(1024))
}

fn longest_text(table: &mut Table) -> String {
    let path = "\u{1}".repeat(1024);
    let (rust, map) = longest(&path);
    let text = rust.to_json();
    assert_eq!(written(&map, path.as_bytes()), text.as_bytes());
    assert_eq!(read(text.as_bytes()), (0, map.clone(), path.clone().into_bytes()));
    let t = medians(
        51,
        &mut [
            &mut || drop(black_box(written(black_box(&map), path.as_bytes()))),
            &mut || drop(black_box(black_box(&rust).to_json())),
            &mut || drop(black_box(read(black_box(text.as_bytes())))),
            &mut || assert_eq!(SegmentMap::from_json(black_box(&text)).unwrap().segments.len(), 1024),
        ],
    );
    table.row("the longest JSON, 255,141 bytes, written", t[0] / t[1], "", None);
    table.row("the same, read", t[2] / t[3], "", None);
    text
}

/// 1, 4, 16 and 64 MiB of what is no map's: each is linear in the length.
fn long_texts(table: &mut Table, text: &str) {
    let sound = &text[..text.rfind('\n').unwrap() - 2];
    let row = "{\"source_start_frame\":1,\"source_end_frame\":2,\"source_start_dts\":3,\"frame_count\":4,\"output_start\":5,\"duration\":6},";
    let list = &text[..text.find("[\n").unwrap() + 1];
    for (what, number, head, unit, tail) in [
        ("opening brackets", 23, "", "[", ""),
        ("a string without an end", 23, "\"", "a", ""),
        ("a path of escapes without an end", 23, "{\"input\":\"", "\\n", ""),
        ("empty arrays in fields that are skipped, without an end", 23, "{", "\"a\":[],", ""),
        ("the same in a sound map", 0, &format!("{sound},"), "\"a\":[],", "\"b\":0}"),
        ("white space in a sound map", 0, sound, "\n", "}"),
        ("segments", 15, list, row, &format!("{}]}}", row.trim_end_matches(','))),
    ] {
        for mib in [1, 4, 16, 64] {
            let text = head.to_string() + &unit.repeat((mib << 20) / unit.len()) + tail;
            let t = medians(1, &mut [&mut || assert_eq!(read(text.as_bytes()).0, number)]);
            table.row(&format!("{mib} MiB of {what} (answer {number})"), t[0] * 1e3, " ms", None);
        }
    }
}

pub fn all(table: &mut Table) {
    let text = longest_text(table);
    long_texts(table, &text);
}
