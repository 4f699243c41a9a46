//! The C functions of the static library, and a safe function over each: slices and places of the right types in, what the function told
//! out. This is the only module with `unsafe` in it. Each C function returns on every input and writes nothing but what is lent to it, so
//! these functions take slices of any length; include/retimer.h says what each reads, writes and answers.
use crate::{BestDelay, Refused, Starts};

#[link(name = "retimer", kind = "static")]
extern "C" {
    fn retimer_sheet_check(sheet: *const u8, length: usize, work: *mut u8, work_length: usize) -> u32;
    fn retimer_list_check(list: *const u8, length: usize) -> u32;
    fn retimer_units_to_ticks(value: u64, timescale: u32, kind: u32) -> u64;
    fn retimer_ticks_to_units_floor(value: u64, timescale: u32, kind: u32) -> u64;
    fn retimer_ticks_to_units_ceil(value: u64, timescale: u32, kind: u32) -> u64;
    fn retimer_units_number(value: u64, timescale: u32, kind: u32) -> u32;
    fn retimer_ticks_number(value: u64, timescale: u32, kind: u32) -> u32;
    fn retimer_map(sheet: *const u8, sheet_length: usize, list: *const u8, list_length: usize, direction: u32, work: *mut u8, work_length: usize, map: *mut u64, map_numbers: usize, timescale: *mut u32, count: *mut u64) -> u32;
    fn retimer_open(kind: u32, timescale: u32, map: *const u64, map_length: usize, session: *mut u8, session_length: usize) -> u32;
    fn retimer_feed(
        session: *mut u8,
        session_length: usize,
        map: *const u64,
        map_length: usize,
        piece: *const u8,
        piece_length: usize,
        out: *mut u8,
        out_length: usize,
        warnings: *mut u64,
        places: usize,
        written: *mut u64,
        warned: *mut u64,
    ) -> u32;
    fn retimer_finish(session: *mut u8, session_length: usize, map: *const u64, map_length: usize, out: *mut u8, out_length: usize, warnings: *mut u64, places: usize, written: *mut u64, warned: *mut u64) -> u32;
    fn retimer_text(kind: u32, timescale: u32, map: *const u64, map_length: usize, text: *const u8, length: usize, out: *mut u8, out_length: usize, warnings: *mut u64, places: usize, told: *mut u64, told_places: usize) -> u32;
    fn retimer_cues(kind: u32, text: *const u8, length: usize, rows: *mut u64, places: usize, told: *mut u64, told_places: usize) -> u32;
    fn retimer_rough(map: *const u64, length: usize, start_low: u64, start_high: u64, end_low: u64, end_high: u64, judgement: *mut u64) -> u32;
    fn retimer_why(map: *const u64, length: usize, timescale: u32, kind: u32, start: u64, stop: u64, causes: *mut u64, places: usize, fate: *mut u64, place: *mut u64, start_cut: *mut u64, end_cut: *mut u64) -> u32;
    fn retimer_census(map: *const u64, map_length: usize, timescale: u32, kind: u32, length: u64, count: u64, shifted: *mut u64, clipped: *mut u64, dropped: *mut u64) -> u32;
    fn retimer_best_delay(map: *const u64, map_length: usize, timescale: u32, kind: u32, captions: *const u64, captions_length: usize, budget: u32, delay: *mut i64, loss: *mut u32, tried: *mut u32, off: *mut u32) -> u32;
    fn retimer_map_write(map: *const u64, length: usize, timescale: u32, rate_num: u32, rate_den: u32, path: *const u8, path_length: usize, frames: u32, text: *mut u8, places: usize, written: *mut u64) -> u32;
    fn retimer_map_read(
        text: *const u8,
        length: usize,
        map: *mut u64,
        map_places: usize,
        path: *mut u8,
        path_places: usize,
        timescale: *mut u32,
        rate_num: *mut u32,
        rate_den: *mut u32,
        frames: *mut u32,
        numbers: *mut u64,
        path_length: *mut u64,
    ) -> u32;
}

/// The number of a sheet: as [`check_sheet`](crate::check_sheet), and 16 where fewer work bytes are lent than n / 8, rounded up. With 0, 25 and 26
/// those needed end zero, whatever stood there, and any others stay; with other numbers all stay.
pub fn sheet_check(sheet: &[u8], work: &mut [u8]) -> u32 {
    unsafe { retimer_sheet_check(sheet.as_ptr(), sheet.len(), work.as_mut_ptr(), work.len()) }
}

/// The number of a trim list.
pub fn list_check(list: &[u8]) -> u32 {
    unsafe { retimer_list_check(list.as_ptr(), list.len()) }
}

/// The value that units give as ticks; 0 when refused.
pub fn units_to_ticks(value: u64, timescale: u32, kind: u32) -> u64 {
    unsafe { retimer_units_to_ticks(value, timescale, kind) }
}

/// The value that ticks give as units, down; 0 when refused.
pub fn ticks_to_units_floor(value: u64, timescale: u32, kind: u32) -> u64 {
    unsafe { retimer_ticks_to_units_floor(value, timescale, kind) }
}

/// The value that ticks give as units, up; 0 when refused.
pub fn ticks_to_units_ceil(value: u64, timescale: u32, kind: u32) -> u64 {
    unsafe { retimer_ticks_to_units_ceil(value, timescale, kind) }
}

/// The number of a conversion from units.
pub fn units_number(value: u64, timescale: u32, kind: u32) -> u32 {
    unsafe { retimer_units_number(value, timescale, kind) }
}

/// The number of a conversion from ticks.
pub fn ticks_number(value: u64, timescale: u32, kind: u32) -> u32 {
    unsafe { retimer_ticks_number(value, timescale, kind) }
}

/// The map of a sheet and a list; with another number than 0 the numbers and both places stay.
pub fn map_of(sheet: &[u8], list: &[u8], direction: u32, work: &mut [u8], map: &mut [u64], timescale: &mut u32, count: &mut u64) -> u32 {
    unsafe { retimer_map(sheet.as_ptr(), sheet.len(), list.as_ptr(), list.len(), direction, work.as_mut_ptr(), work.len(), map.as_mut_ptr(), map.len(), timescale, count) }
}

/// A session opened in the bytes that are lent.
pub fn open(kind: u32, timescale: u32, map: &[u64], session: &mut [u8]) -> u32 {
    unsafe { retimer_open(kind, timescale, map.as_ptr(), map.len(), session.as_mut_ptr(), session.len()) }
}

/// A piece fed to a session; refused, all that is lent stays as it was.
pub fn feed(session: &mut [u8], map: &[u64], piece: &[u8], out: &mut [u8], warnings: &mut [u64], written: &mut u64, warned: &mut u64) -> u32 {
    unsafe { retimer_feed(session.as_mut_ptr(), session.len(), map.as_ptr(), map.len(), piece.as_ptr(), piece.len(), out.as_mut_ptr(), out.len(), warnings.as_mut_ptr(), warnings.len(), written, warned) }
}

/// The end of a session's text; refused, all that is lent stays as it was.
pub fn finish(session: &mut [u8], map: &[u64], out: &mut [u8], warnings: &mut [u64], written: &mut u64, warned: &mut u64) -> u32 {
    unsafe { retimer_finish(session.as_mut_ptr(), session.len(), map.as_ptr(), map.len(), out.as_mut_ptr(), out.len(), warnings.as_mut_ptr(), warnings.len(), written, warned) }
}

/// A whole text; refused (15, 16), all that is lent stays as it was. The seven numbers told: bytes written, numbers for warnings, captions shifted, clipped, dropped and
/// passed, bytes taken.
pub fn text(kind: u32, timescale: u32, map: &[u64], text: &[u8], out: &mut [u8], warnings: &mut [u64], told: &mut [u64]) -> u32 {
    unsafe { retimer_text(kind, timescale, map.as_ptr(), map.len(), text.as_ptr(), text.len(), out.as_mut_ptr(), out.len(), warnings.as_mut_ptr(), warnings.len(), told.as_mut_ptr(), told.len()) }
}

/// The captions of a whole text; refused (16), all that is lent stays as it was. Six numbers for each: line, 0 or the warning 1 or 2 with which it passes, start, end, the byte at which
/// its words stand and how many bytes they are. The two numbers told: how many captions there are, and the line of the fault, or 0.
pub fn cues(kind: u32, text: &[u8], rows: &mut [u64], told: &mut [u64]) -> u32 {
    unsafe { retimer_cues(kind, text.as_ptr(), text.len(), rows.as_mut_ptr(), rows.len(), told.as_mut_ptr(), told.len()) }
}

/// What is sure of a caption known roughly: its number, and 0 dropped, 1 kept, 2 unsure.
pub fn rough(map: &[u64], start: (u64, u64), end: (u64, u64)) -> (u32, u64) {
    let mut told = 0;
    let number = unsafe { retimer_rough(map.as_ptr(), map.len(), start.0, start.1, end.0, end.1, &mut told) };
    (number, told)
}

/// What becomes of a caption and why: its number, then fate, place, and the ticks cut off at its start and its end. Of a dropped caption the causes are
/// written.
pub fn why(map: &[u64], timescale: u32, kind: u32, start: u64, stop: u64, causes: &mut [u64]) -> (u32, [u64; 4]) {
    let (mut fate, mut place, mut start_cut, mut end_cut) = (0, 0, 0, 0);
    let number = unsafe { retimer_why(map.as_ptr(), map.len(), timescale, kind, start, stop, causes.as_mut_ptr(), causes.len(), &mut fate, &mut place, &mut start_cut, &mut end_cut) };
    (number, [fate, place, start_cut, end_cut])
}

/// How many starts survive a cut: the number. The counts go to `told`, which stays as it was where it is refused.
pub fn census(map: &[u64], timescale: u32, kind: u32, length: u64, count: u64, told: &mut Starts) -> u32 {
    unsafe { retimer_census(map.as_ptr(), map.len(), timescale, kind, length, count, &mut told.shifted, &mut told.clipped, &mut told.dropped) }
}

/// The delay that loses least, for any row of times, start and end in turn (an odd number of them is 16): the number. The answer goes to `told`, which
/// stays as it was where it is refused.
pub fn flat_delay(map: &[u64], timescale: u32, kind: u32, captions: &[u64], budget: u32, told: &mut BestDelay) -> u32 {
    unsafe { retimer_best_delay(map.as_ptr(), map.len(), timescale, kind, captions.as_ptr(), captions.len(), budget, &mut told.delay, &mut told.loss, &mut told.tried, &mut told.off) }
}

/// The JSON text of a map: any bytes as the path (20 where they are not UTF-8), and the text's bytes lent (16 where it does not fit). The
/// count of bytes written; refused, none is.
pub fn map_write(map: &[u64], timescale: u32, rate: (u32, u32), path: &[u8], frames: u32, text: &mut [u8]) -> Result<usize, Refused> {
    let mut written = 0;
    let number = unsafe { retimer_map_write(map.as_ptr(), map.len(), timescale, rate.0, rate.1, path.as_ptr(), path.len(), frames, text.as_mut_ptr(), text.len(), &mut written) };
    Refused::unless_done(number)?;
    Ok(written as usize)
}

/// A map read from its JSON text: 16 behind 23 and 15 where fewer than 6,144 numbers or 1,024 path bytes are lent. The four places are
/// timescale, frame rate and frame count; the counts of numbers and path bytes written come back. Refused, nothing is written.
pub fn map_read(text: &[u8], map: &mut [u64], path: &mut [u8], told: [&mut u32; 4]) -> Result<(usize, usize), Refused> {
    let (mut numbers, mut length) = (0, 0);
    let [timescale, rate_num, rate_den, frames] = told;
    let number = unsafe { retimer_map_read(text.as_ptr(), text.len(), map.as_mut_ptr(), map.len(), path.as_mut_ptr(), path.len(), timescale, rate_num, rate_den, frames, &mut numbers, &mut length) };
    Refused::unless_done(number)?;
    Ok((numbers as usize, length as usize))
}
