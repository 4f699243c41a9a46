//! A whole play beside the Rust on the same numbers: the captions of a kind, with the map and without it.
use crate::clock::medians;
use crate::here::{by_feed, by_text, lent};
use crate::maps::{frames, map_here, map_rust};
use crate::table::Table;
use crate::texts::remap;
use std::hint::black_box;
use std::path::Path;

/// The files of the play. The Rust reads no points in SRT, so `commas` is that text with commas in the times.
pub struct Play {
    pub sheet: Vec<u8>,
    pub list: Vec<u8>,
    pub ass: Vec<u8>,
    pub srt: Vec<u8>,
    pub commas: Vec<u8>,
    pub vtt: Vec<u8>,
}

impl Play {
    pub fn read(folder: &Path) -> Play {
        let file = |name: &str| std::fs::read(folder.join(name)).unwrap();
        Play { sheet: file("sheet.bin"), list: file("trim.txt"), ass: file("subs.ass"), srt: file("subs.srt"), commas: file("commas.srt"), vtt: file("subs.vtt") }
    }

    pub fn texts(&self) -> [(u32, &'static str, &[u8]); 3] {
        [(0, "ASS", &self.ass), (1, "SRT", &self.srt), (2, "WebVTT", &self.vtt)]
    }
}

/// What is lent is made anew for each text, as the Rust makes its strings.
fn fed(kind: u32, map: &[u64], text: &[u8]) {
    black_box(by_feed(kind, map, text, &mut lent(text), 1024));
}

fn at_once(kind: u32, map: &[u64], text: &[u8]) {
    black_box(by_text(kind, map, text, &mut lent(text)));
}

fn same_but_marks(here: &[u8], rust: &[u8]) -> bool {
    here.len() == rust.len() && here.iter().zip(rust).all(|(a, b)| a == b || (*a, *b) == (b'.', b','))
}

/// The Rust must make the same of everything.
fn agree(kind: u32, map: &[u64], text: &[u8], rust: &str) {
    let (mut a, mut b) = (lent(text), lent(text));
    let (number, size) = by_feed(kind, map, text, &mut a, 1024);
    assert_eq!((number, size), by_text(kind, map, text, &mut b));
    assert!(number == 0 && same_but_marks(&a.out[..size], rust.as_bytes()) && a.out[..size] == b.out[..size]);
}

fn beside_rust(table: &mut Table, play: &Play, kind: u32, name: &str, text: &[u8], commas: &[u8]) {
    let (f, l) = (frames(&play.sheet), std::str::from_utf8(&play.list).unwrap());
    let (map, rust) = (map_here(&play.sheet, &play.list), map_rust(&f, l));
    agree(kind, &map, text, &remap(kind, &rust.segments, commas));
    let t = medians(
        51,
        &mut [
            &mut || drop(black_box(remap(kind, &rust.segments, black_box(commas)))),
            &mut || drop(black_box(remap(kind, &map_rust(black_box(&f), l).segments, black_box(commas)))),
            &mut || at_once(kind, &map, black_box(text)),
            &mut || at_once(kind, &map_here(black_box(&play.sheet), &play.list), black_box(text)),
            &mut || fed(kind, &map, black_box(text)),
            &mut || fed(kind, &map_here(black_box(&play.sheet), &play.list), black_box(text)),
        ],
    );
    for (k, way) in [(2, "retimer_text"), (4, "retimer_feed")] {
        table.row(&format!("a play of three hours, {name}, {way}"), t[k] / t[0], "", None);
        table.row(&format!("the same, with the map and the sheet's check, {way}"), t[k + 1] / t[1], "", None);
    }
}

pub fn play(table: &mut Table, play: &Play) {
    beside_rust(table, play, 0, "ASS", &play.ass, &play.ass);
    beside_rust(table, play, 1, "SRT", &play.srt, &play.commas);
    let t = medians(51, &mut [&mut || at_once(2, &map_here(black_box(&play.sheet), &play.list), black_box(&play.vtt))]);
    table.row("the same, WebVTT, which the Rust has not", t[0] * 1e3, " ms", None);
}
