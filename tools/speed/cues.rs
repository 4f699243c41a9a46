//! Feeds and captions read as rows beside texts that are taken at once: what the bytes of a session cost.
use crate::clock::medians;
use crate::here::{by_feed, by_text, lent};
use crate::maps::map_here;
use crate::play::Play;
use crate::table::Table;
use crate::words;
use std::hint::black_box;

extern "C" {
    fn retimer_cues(kind: u32, text: *const u8, text_length: usize, rows: *mut u64, rows_lent: usize, told: *mut u64, told_lent: usize) -> u32;
}

fn beside_text(table: &mut Table, kind: u32, name: &str, map: &[u64], text: &[u8]) {
    let (mut a, mut b) = (lent(text), lent(text));
    let (mut rows, mut told) = (vec![0; 6 * (text.len() / 8 + 1)], [0; 2]);
    let t = medians(
        51,
        &mut [
            &mut || assert_eq!(by_text(kind, map, black_box(text), &mut b).0, 0),
            &mut || assert_eq!(by_feed(kind, map, black_box(text), &mut a, 1024).0, 0),
            &mut || assert_eq!(unsafe { retimer_cues(kind, black_box(text).as_ptr(), text.len(), rows.as_mut_ptr(), rows.len(), told.as_mut_ptr(), 2) }, 0),
        ],
    );
    table.row(&format!("{name}, retimer_feed beside retimer_text"), t[1] / t[0], "", None);
    table.row(&format!("{name}, retimer_cues beside retimer_text"), t[2] / t[0], "", None);
}

/// The captions of the play; and SRT in blocks of some 2,700 bytes, half of which are held on the average.
pub fn cues(table: &mut Table, play: &Play) {
    let map = map_here(&play.sheet, &play.list);
    for (kind, name, text) in play.texts() {
        beside_text(table, kind, name, &map, text);
    }
    let block = |k: u64| format!("{k}\n{} --> {}\n{}\n", words::stamp(1, 2000 * k), words::stamp(1, 2000 * k + 1500), "A line of captions, with a comma, and more.\n".repeat(60));
    let long: String = (1..200).map(block).collect();
    beside_text(table, 1, "SRT in long blocks", &words::map(30), long.as_bytes());
}
