//! Answers a stream of cases through the C functions: the oracle's ops 1, 2 and 4, a line for each case, and op 16.
//! `list N`, `sheet N SUM` or `converted V` / `refused N`. To a sheet's check as many work bytes are lent as word c says (0: 131,072),
//! byte k being k * 37 % 255 + 1; SUM is that of (k + 1) times byte k afterwards.
//! Op 16, kind b and the text Z: `cues COUNT LINE`, six numbers for each caption, and `fault N` where the number is not 0, or `refused 16`; then `end`. As many places are lent as word c says (0: enough). What a call
//! must not write is tested.
use std::io::{BufWriter, Read, Write};

fn word(s: &[u8], k: usize) -> u32 {
    u32::from_le_bytes(s[4 * k..4 * k + 4].try_into().unwrap())
}

fn number(r: Result<(), retimer::Refused>) -> u32 {
    r.err().map_or(0, |n| n.0)
}

/// The captions of a text. What is lent is filled with 7, and what is not written must stay so.
fn cues(kind: u32, text: &[u8], lent: usize) -> String {
    let lent = if lent == 0 { 6 * (text.len() / 8 + 1) } else { lent };
    let (mut rows, mut told) = (vec![7; lent], [7; 3]);
    let number = retimer::raw::cues(kind, text, &mut rows, &mut told[..2]);
    let written = if number == 16 { 0 } else { 6 * told[0] as usize };
    assert!(rows[written..].iter().all(|n| *n == 7) && told[2] == 7 && (number != 16 || told == [7; 3]));
    if number == 16 {
        return "refused 16\nend\n".to_string();
    }
    let row = |row: &[u64]| row.iter().map(u64::to_string).collect::<Vec<_>>().join(" ") + "\n";
    let fault = if number == 0 { String::new() } else { format!("fault {number}\n") };
    format!("cues {} {}\n", told[0], told[1]) + &rows[..written].chunks(6).map(row).collect::<String>() + &fault + "end\n"
}

fn main() {
    let mut input = Vec::new();
    std::io::stdin().read_to_end(&mut input).unwrap();
    let mut out = BufWriter::new(std::io::stdout());
    let mut s = &input[..];
    while s.len() >= 32 {
        let (op, a, b, c) = (word(s, 0), word(s, 1), word(s, 2), word(s, 3));
        let (x, y, z) = (word(s, 5) as usize, word(s, 6) as usize, word(s, 7) as usize);
        let part = &s[32..32 + x];
        match op {
            1 => writeln!(out, "list {}", number(retimer::check_list(part))),
            2 => {
                let lent = if c == 0 { retimer::MOST_WORK } else { c as usize };
                let mut work: Vec<u8> = (0..lent).map(|k| (k * 37 % 255 + 1) as u8).collect();
                let told = retimer::raw::sheet_check(part, &mut work);
                let sum: u64 = work.iter().zip(1..).map(|(b, k)| k * u64::from(*b)).sum();
                writeln!(out, "sheet {told} {sum}")
            }
            4 => {
                let value = u64::from_le_bytes(part.try_into().unwrap());
                // a unit that is neither 100 nor 1000 is a kind that there is not
                let kind = match b {
                    100 => 0,
                    1000 => 1,
                    _ => 3,
                };
                let refused = match c {
                    0 => retimer::raw::units_number(value, a, kind),
                    _ => retimer::raw::ticks_number(value, a, kind),
                };
                let converted = match c {
                    0 => retimer::raw::units_to_ticks(value, a, kind),
                    1 => retimer::raw::ticks_to_units_floor(value, a, kind),
                    _ => retimer::raw::ticks_to_units_ceil(value, a, kind),
                };
                match refused {
                    0 => writeln!(out, "converted {converted}"),
                    n => writeln!(out, "refused {n}"),
                }
            }
            16 => write!(out, "{}", cues(b, &s[32 + x + y..32 + x + y + z], c as usize)),
            _ => writeln!(out, "unknown op {op}"),
        }
        .unwrap();
        s = &s[32 + x + y + z..];
    }
}
