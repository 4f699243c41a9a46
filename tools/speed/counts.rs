//! Counts of starts and the search for a delay at their limits, beside plain Rust: 36,000,000 starts, 12,001 delays, 4,096 captions, 1,024 segments.
use crate::clock::medians;
use crate::maps::{retimer_best_delay, retimer_census};
use crate::table::Table;
use std::hint::black_box;

/// Source start, output start and duration.
type Row = [u64; 3];
const STARTS: u64 = 36_000_000;
const TIMESCALE: u64 = 30_000;
const UNITS: u64 = 1000;

fn flat(rows: &[Row]) -> Vec<u64> {
    rows.iter().enumerate().flat_map(|(k, &[q, o, d])| [k as u64, k as u64 + 1, q, 1, o, d]).collect()
}

// ---- starts
/// 1,024 segments of a tenth to a half of 36,000 s together.
fn stretches() -> Vec<Row> {
    let (mut rows, mut output) = (Vec::new(), 0);
    for i in 0..1024u64 {
        let duration = 3_000 + 7_919 * i % 14_000;
        rows.push([35_150 * i + 11 * (i % 7), output, duration].map(|ms| ms * TIMESCALE / UNITS));
        output += duration;
    }
    rows
}

fn count(told: &mut [u64; 3], found: Option<&Row>, a: u64, b: u64) {
    match found {
        None => told[2] += 1,
        Some(&[q, _, d]) if a < q || q + d < b => told[1] += 1,
        Some(_) => told[0] += 1,
    }
}

/// Every start by itself, segments that end before it left behind, which an ascending map allows.
fn following(rows: &[Row], length: u64) -> [u64; 3] {
    let (mut told, mut left) = ([0; 3], rows);
    for s in 0..STARTS {
        let (a, b) = (s * TIMESCALE / UNITS, (s + length) * TIMESCALE / UNITS);
        while let [[q, _, d], rest @ ..] = left {
            if *d > 0 && a < q + d {
                break;
            }
            left = rest;
        }
        count(&mut told, left.first().filter(|[q, _, _]| *q < b), a, b);
    }
    told
}

pub fn starts(table: &mut Table) {
    let rows = stretches();
    let (map, mut told, mut same) = (flat(&rows), [0; 3], [0; 3]);
    let [a, b, c] = &mut told;
    let here = &mut || assert_eq!(unsafe { retimer_census(map.as_ptr(), map.len(), TIMESCALE as u32, 1, 2_000, STARTS, a, b, c) }, 0);
    let t = medians(5, &mut [here, &mut || same = black_box(following(black_box(&rows), 2_000))]);
    assert_eq!(told, same);
    table.row("census of 36,000,000 starts, 1,024 segments", t[0] * 1e6, " us", None);
    table.row("the same start by start in Rust, each from the segment of the one before", t[1] * 1e3, " ms", None);
}

// ---- delays: the same algorithm in Rust
// The fate of a caption is painted over the window of moved starts, the last segment first, and looked up for every delay.
fn up(tick: u64) -> u64 {
    (tick * UNITS).div_ceil(TIMESCALE)
}

fn fill(marks: &mut [u8], lo: u64, hi: u64, v: u8) {
    if lo < hi {
        marks[lo as usize..hi as usize].fill(v);
    }
}

fn paint(rows: &[Row], start: u64, stop: u64, marks: &mut [u8; 12001]) {
    marks.fill(0);
    for &[q, _, d] in rows.iter().rev().filter(|r| r[2] > 0) {
        let (till, from, low, high) = (up(q + d), up(q + 1), up(q), up(q + d + 1));
        let lo = (from + 6000).saturating_sub(stop);
        let hi = (till + 6000).saturating_sub(start).min(12001);
        fill(marks, lo, hi, 1);
        fill(marks, lo.max((low + 6000).saturating_sub(start)), hi.min((high + 6000).saturating_sub(stop)), 2);
    }
}

fn delay_of(k: usize) -> i64 {
    if k % 2 == 1 { k as i64 / 2 + 1 } else { -(k as i64 / 2) }
}

fn losses(rows: &[Row], captions: &[u64]) -> [u32; 12001] {
    let (mut marks, mut losses) = ([0u8; 12001], [0u32; 12001]);
    for c in captions.chunks(2) {
        paint(rows, c[0], c[1], &mut marks);
        for (k, loss) in losses.iter_mut().enumerate() {
            let d = delay_of(k);
            *loss += match (c[0].checked_add_signed(d), c[1].checked_add_signed(d)) {
                (Some(s), Some(_)) => u32::from(marks[(s + 6000 - c[0]) as usize] != 2),
                _ => 1,
            };
        }
    }
    losses
}

/// The delay, its loss, the tries, and how far off.
fn plain(rows: &[Row], captions: &[u64]) -> (i64, u32, u32, u32) {
    let losses = losses(rows, captions);
    let least = *losses.iter().min().unwrap();
    let place = losses.iter().position(|n| *n == least).unwrap();
    let longest = rows.iter().map(|r| r[2]).max().unwrap();
    let floor = captions.chunks(2).filter(|c| c[0] < c[1] && (c[1] - c[0]) * TIMESCALE / UNITS > longest).count() as u32;
    (delay_of(place), least, 12_001, least - floor)
}

/// Segments of `long` ms, one behind the other, every `every` ms.
fn row(long: u64, every: u64) -> Vec<Row> {
    (0..1024).map(|i| [every * i * 30, long * i * 30, long * 30]).collect()
}

fn maps() -> Vec<(&'static str, Vec<Row>)> {
    let short = row(60, 63);
    let reversed: Vec<Row> = short.iter().rev().copied().collect();
    let shuffled: Vec<Row> = (0..1024).map(|i| short[i * 617 % 1024]).collect();
    let nested = (0..1024).map(|i| [(40_000 - 30 * i) * 30, 0, (60 * i + 20) * 30]).collect();
    let long = row(34_000, 34_500).into_iter().rev().collect();
    let over = (0..1024).map(|i| [30 * i, 0, 36_000_000 * 30]).collect();
    vec![("60 ms, ascending", short), ("60 ms, reversed", reversed), ("60 ms, shuffled", shuffled), ("nested, each within the next", nested), ("34 s, reversed", long), ("long ones over each other", over)]
}

pub fn delays(table: &mut Table) {
    for (what, rows) in maps() {
        let (map, span) = (flat(&rows), rows.iter().map(|r| r[0] + r[2]).max().unwrap() / 30);
        let caption = |i: u64| (i * 9_973_001 % span, 20 + i * 7_919 % 2_000);
        let captions: Vec<u64> = (0..4096).map(caption).flat_map(|(s, l)| [s, s + if s % 2 == 0 { l } else { l % 50 }]).collect();
        let (mut told, mut same) = ((0, 0, 0, 0), (0, 0, 0, 0));
        let (delay, loss, tried, off) = (&mut told.0, &mut told.1, &mut told.2, &mut told.3);
        let here = &mut || assert_eq!(unsafe { retimer_best_delay(map.as_ptr(), map.len(), TIMESCALE as u32, 1, captions.as_ptr(), captions.len(), u32::MAX, delay, loss, tried, off) }, 0);
        let t = medians(3, &mut [here, &mut || same = black_box(plain(black_box(&rows), black_box(&captions)))]);
        assert_eq!(told, same, "{what}");
        table.row(&format!("delay of 4,096 captions, {what}"), t[0], " s", None);
        table.row("the same, beside the same algorithm in Rust", t[0] / t[1], "", None);
    }
}
