//! Sheets and lists at their limits: 1,048,576 frames, 1,024 ranges.
use crate::clock::medians;
use crate::maps::{frames, map_rust, retimer_map, retimer_sheet_check};
use crate::table::Table;
use std::hint::black_box;

const FRAMES: u32 = 1_048_576;
const OUTWARD: u32 = 0;
const INWARD: u32 = 1;

fn sheet(decode: impl Fn(u32) -> u32, sync: impl Fn(u32) -> bool) -> Vec<u8> {
    let blocks = 1 + FRAMES.div_ceil(63);
    let mut w = vec![0u32; 128 * blocks as usize];
    (w[1], w[2]) = (30_000, FRAMES);
    for i in 0..FRAMES {
        let at = (128 * (1 + i / 63) + 1 + 2 * (i % 63)) as usize;
        w[at] = decode(i) | if sync(i) { 1 << 31 } else { 0 };
        w[at + 1] = 1001;
    }
    for b in 0..blocks as usize {
        w[128 * b] = b as u32;
        w[128 * b + 127] = w[128 * b..128 * b + 127].iter().fold(0, |a, x| a.wrapping_add(*x));
    }
    w.iter().flat_map(|x| x.to_le_bytes()).collect()
}

/// One trim in each 1,024 frames, both ends counted from where they begin.
fn trims(first: u32, last: u32) -> String {
    (0..1024).map(|i| format!("Trim({},{})", 1024 * i + first, 1024 * i + last)).collect::<Vec<_>>().join(" ++ ")
}

/// The sheet's check as one would write it in Rust, for the first layout.
fn plain_check(s: &[u8]) -> u32 {
    let word = |k: usize| u32::from_le_bytes(s[4 * k..4 * k + 4].try_into().unwrap());
    let sound = |b: usize| word(128 * b) == b as u32 && word(128 * b + 127) == (0..127).fold(0u32, |a, k| a.wrapping_add(word(128 * b + k)));
    if s.is_empty() || s.len() % 512 != 0 {
        return 11;
    }
    if !sound(0) {
        return 12;
    }
    let (t, n) = (word(1), word(2) as usize);
    if !(1..=1_000_000).contains(&t) || !(1..=1_048_576).contains(&n) || (5..127).any(|k| word(k) != 0) {
        return 13;
    }
    if s.len() != 512 * (1 + n.div_ceil(63)) {
        return 11;
    }
    for b in 1..s.len() / 512 {
        if !sound(b) {
            return 12;
        }
        let bad = |r: usize, x: u32, d: u32| if 63 * (b - 1) + r < n { (x & 0x7fff_ffff) as usize >= n } else { x != 0 || d != 0 };
        if (0..63).any(|r| bad(r, word(128 * b + 1 + 2 * r), word(128 * b + 2 + 2 * r))) {
            return 14;
        }
    }
    plain_once(n, |i| (word(128 * (1 + i / 63) + 1 + 2 * (i % 63)) & 0x7fff_ffff) as usize)
}

/// 25 where two frames have one index, by a bitmap.
fn plain_once(n: usize, index: impl Fn(usize) -> usize) -> u32 {
    let mut seen = vec![0u8; n.div_ceil(8)];
    for i in 0..n {
        let d = index(i);
        if seen[d / 8] >> (d % 8) & 1 == 1 {
            return 25;
        }
        seen[d / 8] |= 1 << (d % 8);
    }
    0
}

fn checks(table: &mut Table) {
    // an odd factor permutes the numbers below 2^20, far apart from frame to frame
    let shuffled = |i: u32| i.wrapping_mul(0x9E37_79B1) % FRAMES;
    let every = |i: u32| i % 15 == 0;
    for (what, s) in [("in order", sheet(|i| i, every)), ("shuffled", sheet(shuffled, every))] {
        let mut work = vec![0; 131_072];
        let here = &mut || assert_eq!(unsafe { retimer_sheet_check(black_box(&s).as_ptr(), s.len(), work.as_mut_ptr(), work.len()) }, 0);
        let t = medians(21, &mut [here, &mut || assert_eq!(plain_check(black_box(&s)), 0)]);
        table.row(&format!("sheet check, 1,048,576 frames {what}, beside a plain one with a bitmap"), t[0] / t[1], "", None);
    }
}

/// The number of the map of a sheet and a list, both checked.
fn map_number(sheet: &[u8], list: &str, direction: u32) -> u32 {
    let (mut work, mut map, mut timescale, mut count) = (vec![0; 131_072], vec![0; 6144], 0, 0);
    unsafe { retimer_map(sheet.as_ptr(), sheet.len(), list.as_ptr(), list.len(), direction, work.as_mut_ptr(), work.len(), map.as_mut_ptr(), map.len(), &mut timescale, &mut count) }
}

/// Beside the Rust: groups of 15 frames, a sync frame, then frames whose decode order differs from the display order.
fn beside_rust(table: &mut Table) {
    let decode = |i: u32| match i % 15 {
        k if k % 2 == 1 && i + 1 < FRAMES && k < 14 => i + 1,
        k if k % 2 == 0 && k > 0 => i - 1,
        _ => i,
    };
    let (sheet, list) = (sheet(decode, |i| i % 15 == 0), trims(30, 930));
    let f = frames(&sheet);
    let here = &mut || assert_eq!(map_number(black_box(&sheet), &list, OUTWARD), 0);
    let t = medians(3, &mut [here, &mut || assert_eq!(map_rust(black_box(&f), &list).segments.len(), 1024)]);
    table.row("map, 1,048,576 frames and 1,024 ranges, both checked", t[0] / t[1], "", None);
}

/// Maps where each boundary could cost a pass over the sheet: no sync frame, one, a decode order that steps back.
fn maps(table: &mut Table) {
    let (same, turned) = (|i: u32| i, |i: u32| FRAMES - 1 - i);
    // every other 1,024 frames change places with those as far from the end
    let zigzag = |i: u32| match i / 1024 {
        b if b.min(1023 - b) % 2 == 1 => 1024 * (1023 - b) + i % 1024,
        _ => i,
    };
    let (long, one) = (trims(30, 930), trims(0, 0));
    // what it is, the sheet, the list, the direction, the number of the answer
    let cases = [
        ("a sync frame every 15, outward", sheet(same, |i| i % 15 == 0), &long, OUTWARD, 0),
        ("a sync frame every 15, inward", sheet(same, |i| i % 15 == 0), &long, INWARD, 0),
        ("a sync frame every 1,024, outward", sheet(same, |i| i % 1024 == 0), &long, OUTWARD, 0),
        ("a sync frame every 1,024, inward", sheet(same, |i| i % 1024 == 0), &long, INWARD, 9),
        ("no sync frame, outward", sheet(same, |_| false), &long, OUTWARD, 8),
        ("no sync frame, inward", sheet(same, |_| false), &long, INWARD, 9),
        ("one sync frame, the first, outward", sheet(same, |i| i == 0), &long, OUTWARD, 8),
        ("one sync frame, the first, inward", sheet(same, |i| i == 0), &long, INWARD, 9),
        ("one sync frame, the last, outward", sheet(same, |i| i == FRAMES - 1), &long, OUTWARD, 8),
        ("one sync frame, the last, inward", sheet(same, |i| i == FRAMES - 1), &long, INWARD, 9),
        ("one-frame trims, in order", sheet(same, |_| true), &one, OUTWARD, 0),
        ("one-frame trims, decode order turned round", sheet(turned, |_| true), &one, OUTWARD, 0),
        ("one-frame trims, decode order zigzag", sheet(zigzag, |_| true), &one, OUTWARD, 0),
        ("long trims, decode order zigzag", sheet(zigzag, |_| true), &long, OUTWARD, 0),
    ];
    for (what, s, list, direction, number) in &cases {
        let t = medians(11, &mut [&mut || assert_eq!(map_number(black_box(s), list, *direction), *number)]);
        table.row(&format!("the same, {what}"), t[0] * 1e3, " ms", None);
    }
}

pub fn all(table: &mut Table) {
    checks(table);
    beside_rust(table);
    maps(table);
}
