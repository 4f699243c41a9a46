//! The proved functions of captions.
#[link(name = "c_api", kind = "static")]
extern "C" {
    fn retimer_open(kind: u32, timescale: u32, map: *const u64, map_length: usize, session: *mut u8, session_lent: usize) -> u32;
    fn retimer_feed(session: *mut u8, session_lent: usize, map: *const u64, map_length: usize, piece: *const u8, piece_length: usize, out: *mut u8, out_lent: usize, warnings: *mut u64, warnings_lent: usize, written: *mut u64, warned: *mut u64) -> u32;
    fn retimer_finish(session: *mut u8, session_lent: usize, map: *const u64, map_length: usize, out: *mut u8, out_lent: usize, warnings: *mut u64, warnings_lent: usize, written: *mut u64, warned: *mut u64) -> u32;
    fn retimer_text(kind: u32, timescale: u32, map: *const u64, map_length: usize, text: *const u8, text_length: usize, out: *mut u8, out_lent: usize, warnings: *mut u64, warnings_lent: usize, told: *mut u64, told_lent: usize) -> u32;
}

pub const TIMESCALE: u32 = 30_000;

/// What is lent for a text.
pub struct Lent {
    pub out: Vec<u8>,
    pub warnings: Vec<u64>,
}

pub fn lent(text: &[u8]) -> Lent {
    Lent { out: vec![0; 3 * text.len() + 32_768], warnings: vec![0; text.len() / 3 + 4096] }
}

/// Number and length of a text that is taken at once.
pub fn by_text(kind: u32, map: &[u64], text: &[u8], to: &mut Lent) -> (u32, usize) {
    let mut told = [0; 7];
    let number = unsafe { retimer_text(kind, TIMESCALE, map.as_ptr(), map.len(), text.as_ptr(), text.len(), to.out.as_mut_ptr(), to.out.len(), to.warnings.as_mut_ptr(), to.warnings.len(), told.as_mut_ptr(), 7) };
    (number, told[0] as usize)
}

/// The same by feeds of `size` bytes over a session that is kept as its bytes.
pub fn by_feed(kind: u32, map: &[u64], text: &[u8], to: &mut Lent, size: usize) -> (u32, usize) {
    let mut session = vec![0; 9216];
    let (mut at, mut warned, mut written, mut told) = (0, 0, 0, 0);
    unsafe {
        assert_eq!(retimer_open(kind, TIMESCALE, map.as_ptr(), map.len(), session.as_mut_ptr(), 9216), 0);
        for piece in text.chunks(size) {
            let (o, w) = (&mut to.out[at..], &mut to.warnings[warned..]);
            let number = retimer_feed(session.as_mut_ptr(), 9216, map.as_ptr(), map.len(), piece.as_ptr(), piece.len(), o.as_mut_ptr(), o.len(), w.as_mut_ptr(), w.len(), &mut written, &mut told);
            (at, warned) = (at + written as usize, warned + told as usize);
            if number != 0 {
                return (number, at);
            }
        }
        let (o, w) = (&mut to.out[at..], &mut to.warnings[warned..]);
        let number = retimer_finish(session.as_mut_ptr(), 9216, map.as_ptr(), map.len(), o.as_mut_ptr(), o.len(), w.as_mut_ptr(), w.len(), &mut written, &mut told);
        (number, at + written as usize)
    }
}
