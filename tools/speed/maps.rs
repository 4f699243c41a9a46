//! The sheet, the map, the list, questions about a map, and its JSON.
use crate::clock::medians;
use crate::mp4io::read::SampleInfo;
use crate::order::{DecodeIdx, DisplayIdx, OrderMap};
use crate::segmap::{Segment, SegmentMap};
use crate::table::Table;
use crate::{cli, commands, plan, trim, words};
use std::hint::black_box;

extern "C" {
    pub fn retimer_sheet_check(sheet: *const u8, sheet_length: usize, work: *mut u8, work_lent: usize) -> u32;
    fn retimer_list_check(list: *const u8, list_length: usize) -> u32;
    pub fn retimer_map(sheet: *const u8, sheet_length: usize, list: *const u8, list_length: usize, direction: u32, work: *mut u8, work_lent: usize, map: *mut u64, map_lent: usize, timescale: *mut u32, count: *mut u64) -> u32;
    pub fn retimer_census(map: *const u64, map_length: usize, timescale: u32, kind: u32, length: u64, count: u64, shifted: *mut u64, clipped: *mut u64, dropped: *mut u64) -> u32;
    pub fn retimer_best_delay(map: *const u64, map_length: usize, timescale: u32, kind: u32, captions: *const u64, captions_length: usize, budget: u32, delay: *mut i64, loss: *mut u32, tried: *mut u32, off: *mut u32) -> u32;
    pub fn retimer_map_write(map: *const u64, length: usize, timescale: u32, rate_num: u32, rate_den: u32, path: *const u8, path_length: usize, frames: u32, text: *mut u8, places: usize, written: *mut u64) -> u32;
    pub fn retimer_map_read(text: *const u8, length: usize, map: *mut u64, map_places: usize, path: *mut u8, path_places: usize, timescale: *mut u32, rate_num: *mut u32, rate_den: *mut u32, frames: *mut u32, numbers: *mut u64, path_length: *mut u64) -> u32;
}

/// The Rust's map of a play, from an OrderMap and samples that are ready made and not checked; in its time the list is parsed.
pub struct Frames {
    timescale: u32,
    count: u32,
    order: OrderMap,
    samples: Vec<SampleInfo>,
    syncs: Vec<DisplayIdx>,
}

pub fn frames(sheet: &[u8]) -> Frames {
    let word = |k: usize| u32::from_le_bytes(sheet[4 * k..4 * k + 4].try_into().unwrap());
    let count = word(2);
    let at = |i: u32| 128 * (1 + i as usize / 63) + 1 + 2 * (i as usize % 63);
    Frames {
        timescale: word(1),
        count,
        order: OrderMap::new((0..count).map(|i| (DisplayIdx(i), DecodeIdx(word(at(i)) & 0x7fff_ffff))).collect()),
        samples: (0..count).map(|i| SampleInfo { file_offset: 0, size: 0, duration: word(at(i) + 1), cts_offset: 0, is_sync: false }).collect(),
        syncs: (0..count).filter(|i| word(at(*i)) >> 31 == 1).map(DisplayIdx).collect(),
    }
}

pub fn map_rust(f: &Frames, list: &str) -> SegmentMap {
    let trims = trim::TrimList::parse(list).unwrap();
    let snapped = plan::snap(&trims, &f.syncs, f.count, cli::Snap::Outward).unwrap();
    let keep = plan::keep_list(&snapped, &f.order).unwrap();
    let starts = commands::segment_video_source_starts(&snapped, &f.order, &f.samples).unwrap();
    let durations = commands::segment_video_durations(&snapped, &keep, &f.samples);
    SegmentMap::build(&snapped, &starts, &durations, f.timescale, 30000, 1001, "x".into(), f.count)
}

/// The map of a play by the proved function, with the checks of its sheet and its list.
pub fn map_here(sheet: &[u8], list: &[u8]) -> Vec<u64> {
    let (mut work, mut map, mut timescale, mut count) = (vec![0; 131_072], vec![0; 6144], 0, 0);
    let number = unsafe { retimer_map(sheet.as_ptr(), sheet.len(), list.as_ptr(), list.len(), 0, work.as_mut_ptr(), work.len(), map.as_mut_ptr(), 6144, &mut timescale, &mut count) };
    assert_eq!((number, timescale), (0, crate::here::TIMESCALE));
    map.truncate(6 * count as usize);
    map
}

pub fn play(table: &mut Table, sheet: &[u8], list: &[u8]) {
    let (f, l) = (frames(sheet), std::str::from_utf8(list).unwrap());
    let (mut work, mut map, mut timescale, mut count) = (vec![0; 131_072], vec![0; 6144], 0, 0);
    let mut again = vec![0; 131_072];
    let t = medians(
        21,
        &mut [
            &mut || assert_eq!(unsafe { retimer_sheet_check(black_box(sheet).as_ptr(), sheet.len(), again.as_mut_ptr(), again.len()) }, 0),
            &mut || assert_eq!(unsafe { retimer_map(black_box(sheet).as_ptr(), sheet.len(), list.as_ptr(), list.len(), 0, work.as_mut_ptr(), work.len(), map.as_mut_ptr(), 6144, &mut timescale, &mut count) }, 0),
            &mut || drop(black_box(map_rust(black_box(&f), l))),
            &mut || {
                black_box(black_box(sheet).chunks_exact(4).fold(0u32, |s, w| s.wrapping_add(u32::from_le_bytes(w.try_into().unwrap()))));
            },
        ],
    );
    table.row("the check of a sheet of 324,000 frames, ns a byte", t[0] * 1e9 / sheet.len() as f64, "", None);
    table.row("the same beside a sum of its words", t[0] / t[3], "", None);
    table.row("the map of a play of three hours, with the check of its sheet", t[1] / t[2], "", Some(1.0));
}

pub fn list(table: &mut Table) {
    let ranges: Vec<String> = (0..1024u32).map(|k| format!("Trim({},{})", 300 * k, 300 * k + 200)).collect();
    let text = ranges.join(" ++ ");
    let t = medians(201, &mut [&mut || assert_eq!(unsafe { retimer_list_check(black_box(&text).as_ptr(), text.len()) }, 0), &mut || assert!(trim::TrimList::parse(black_box(&text)).is_ok())]);
    table.row("a trim list of 1,024 ranges", t[0] / t[1], "", Some(0.9));
}

pub fn questions(table: &mut Table) {
    let map = words::map(1024);
    let (mut a, mut b, mut c) = (0, 0, 0);
    let captions: Vec<u64> = (0..2000).flat_map(|k| [k * 300, k * 300 + 200]).collect();
    let (mut delay, mut loss, mut tried, mut off) = (0, 0, 0, 0);
    let t = medians(
        11,
        &mut [
            &mut || assert_eq!(unsafe { retimer_census(map.as_ptr(), map.len(), 30_000, 1, 2000, 8_000_000, &mut a, &mut b, &mut c) }, 0),
            &mut || assert_eq!(unsafe { retimer_best_delay(map.as_ptr(), map.len(), 30_000, 1, captions.as_ptr(), captions.len(), 12_001, &mut delay, &mut loss, &mut tried, &mut off) }, 0),
        ],
    );
    table.row("census of 8,000,000 starts, 1,024 segments", t[0] * 1e6, " us", None);
    table.row("delay of 2,000 captions, 1,024 segments", t[1] * 1e6, " us", None);
}

pub fn json(table: &mut Table) {
    for count in [30, 1024] {
        let map = words::map(count);
        let segments = map.chunks(6).map(|c| Segment { source_start_frame: c[0] as u32, source_end_frame: c[1] as u32, source_start_dts: c[2], frame_count: c[3] as u32, output_start: c[4], duration: c[5] }).collect();
        let rust = SegmentMap { video_timescale: 30_000, frame_rate_num: 30_000, frame_rate_den: 1001, input: "x".into(), total_frames: 324_000, segments };
        let text = rust.to_json();
        let (mut out, mut size) = (vec![0; 255_141], 0);
        let (mut numbers, mut path, mut told, mut counts) = (vec![0; 6144], vec![0; 1024], [0; 4], [0; 2]);
        let [p, q, r, s] = &mut told;
        let [n, m] = &mut counts;
        let t = medians(
            101,
            &mut [
                &mut || assert_eq!(unsafe { retimer_map_write(map.as_ptr(), map.len(), 30_000, 30_000, 1001, b"x".as_ptr(), 1, 324_000, out.as_mut_ptr(), out.len(), &mut size) }, 0),
                &mut || drop(black_box(black_box(&rust).to_json())),
                &mut || assert_eq!(unsafe { retimer_map_read(text.as_ptr(), text.len(), numbers.as_mut_ptr(), 6144, path.as_mut_ptr(), 1024, p, q, r, s, n, m) }, 0),
                &mut || assert!(SegmentMap::from_json(black_box(&text)).is_ok()),
            ],
        );
        assert!(out[..size as usize] == *text.as_bytes() && numbers[..map.len()] == map[..]);
        table.row(&format!("JSON written, {count} segments"), t[0] / t[1], "", Some(1.0));
        table.row(&format!("JSON read, {count} segments"), t[2] / t[3], "", Some(5.0));
    }
}
