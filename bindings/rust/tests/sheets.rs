//! Frame sheets written from numbers, and their faults.
mod common;

use common::{bytes, file, read, seal, sheet, words, Random};
use retimer::{check_sheet, faults, Frame, Head, Layout, Refused, Sheet};

fn in_order(n: usize, sync: u32) -> Sheet {
    Sheet::in_order(30_000, (30_000, 1_001), vec![1_001; n], (0..n as u32).filter(|k| k % sync == 0))
}

/// The bytes are those of docs/SHEET.md, in both layouts.
#[test]
fn written() {
    let example = Sheet::in_order(30_000, (30_000, 1_001), vec![1_001; 10], [0, 3, 6]);
    assert_eq!(example.to_bytes().unwrap(), read(&file("crates/mapper/data/sheet.bin")));
    for n in [1, 41, 42, 43, 62, 63, 64, 84, 126, 127, 5_000] {
        let made = in_order(n, 7);
        for (layout, long) in [(Layout::Short, false), (Layout::Long, true)] {
            let told = made.to_bytes_in(layout).unwrap();
            assert_eq!(told, bytes(&words(n as u32, 7, long)), "{n} frames");
            assert_eq!(Sheet::from_bytes(&told), Ok(made.clone()));
            assert_eq!(Head::of(&told), Some(Head { timescale: 30_000, frames: n as u32, rate: (30_000, 1_001), layout }));
        }
    }
}

/// Read back as written, with frames stored in another order and long durations.
#[test]
fn read_back() {
    let mut random = Random(1);
    for n in [1, 5, 42, 63, 200] {
        let mut decodes: Vec<u32> = (0..n).collect();
        (1..n as usize).for_each(|k| decodes.swap(k, random.below(k as u64 + 1) as usize));
        let frames = decodes.iter().map(|d| Frame { decode: *d, sync: random.once_in(3) }).collect();
        let durations = (0..n).map(|_| random.below(1 << 40)).collect();
        let made = Sheet { timescale: 1_000_000_000, rate: (24, 1), frames, durations };
        assert_eq!(made.layout(), Layout::Long);
        assert_eq!(Sheet::from_bytes(&made.to_bytes().unwrap()), Ok(made));
    }
}

/// What would be no sound sheet is not written.
#[test]
fn not_written() {
    let good = in_order(10, 3);
    let with = |change: &dyn Fn(&mut Sheet)| {
        let mut made = good.clone();
        change(&mut made);
        made.to_bytes().unwrap_err()
    };
    assert_eq!(with(&|s| s.timescale = 0), Refused(13));
    assert_eq!(with(&|s| s.timescale = 1_000_000_001), Refused(13));
    assert_eq!(with(&|s| s.frames[4].decode = 10), Refused(14));
    assert_eq!(with(&|s| s.frames[4].decode = 1 << 31), Refused(14));
    assert_eq!(with(&|s| s.frames[4].decode = 5), Refused(25));
    assert_eq!(with(&|s| s.durations[4] = 1 << 53), Refused(26));
    assert_eq!(with(&|s| s.durations.truncate(9)), Refused(16));
    assert_eq!(with(&|s| s.frames.clear()), Refused(16));
    assert_eq!(with(&|s| (s.frames.clear(), s.durations.clear()).0), Refused(13));
    let long = Sheet { durations: vec![1 << 32; 10], ..good.clone() };
    assert_eq!(long.to_bytes_in(Layout::Short), Err(Refused(16)));
    let fine = Sheet { timescale: 1_000_001, ..good };
    assert_eq!(fine.to_bytes_in(Layout::Short), Err(Refused(13)));
    assert!(fine.to_bytes().is_ok());
    let many = Sheet::in_order(30_000, (0, 0), vec![1; 1_048_577], []);
    assert_eq!(many.to_bytes(), Err(Refused(13)));
}

fn told(sheet: &[u8]) -> Vec<String> {
    faults::in_sheet(sheet).iter().map(|f| format!("{}: {}", f.refused.number(), f.place)).collect()
}

/// Sound, nothing is told; else the first number is that of the check, whatever the damage.
#[test]
fn first_number() {
    for long in [false, true] {
        let sound = bytes(&words(50, 3, long));
        assert!(faults::in_sheet(&sound).is_empty());
        for bit in 0..8 * sound.len() {
            let mut damaged = sound.clone();
            damaged[bit / 8] ^= 1 << (bit % 8);
            let Err(number) = check_sheet(&damaged) else { panic!("bit {bit} changes nothing") };
            assert_eq!(faults::in_sheet(&damaged)[0].refused, number, "bit {bit}");
        }
        for length in 0..sound.len() {
            let Err(number) = check_sheet(&sound[..length]) else { panic!("{length} bytes") };
            assert_eq!(faults::in_sheet(&sound[..length])[0].refused, number, "{length} bytes");
        }
    }
}

/// Words changed at random, with good sums: the number of the check is told first, and setting right ends.
#[test]
fn changed_words() {
    let mut random = Random(2);
    for _ in 0..20_000 {
        let long = random.once_in(2);
        let mut changed = words(1 + random.below(130) as u32, 3, long);
        for _ in 0..1 + random.below(4) {
            let k = random.below(changed.len() as u64) as usize;
            changed[k] = [random.next() as u32, random.below(150) as u32, 0][random.below(3) as usize];
            if random.once_in(2) {
                seal(&mut changed, k / 128);
            }
        }
        let mut sheet = bytes(&changed);
        if random.once_in(4) {
            sheet.truncate(random.below(sheet.len() as u64 + 1) as usize);
        }
        assert_eq!(faults::in_sheet(&sheet).first().map(|f| f.refused), check_sheet(&sheet).err());
    }
}

#[test]
fn places() {
    let mut w = words(100, 3, false);
    w[129] = 250;
    w[256] = 7;
    w[128 * 2 + 127] = 1;
    seal(&mut w, 1);
    w[1] = 0;
    w[6] = 5;
    seal(&mut w, 0);
    let sum = w[256..256 + 127].iter().fold(0u32, |a, x| a.wrapping_add(*x));
    assert_eq!(
        told(&bytes(&w)),
        [
            "13: word 1 of block 0, ticks a second: 0, and it should be 1 to 1000000".to_string(),
            "13: word 6 of block 0, spare: 5, and it should be 0".to_string(),
            "14: frame 0 (block 1, word 1): its decode index is 250, and it should be below 100".to_string(),
            "12: block 2: its number is 7".to_string(),
            format!("12: block 2: its sum is 1, and its words add up to {sum}"),
        ]
    );
    let cut = sheet(100, 3);
    assert_eq!(told(&cut[..1_024]), ["11: 1024 bytes, and for 100 frames it should be 1536: block 2 and what follows are missing or cut off"]);
    assert_eq!(told(&cut[..1_500]), ["11: 1500 bytes, and for 100 frames it should be 1536: block 2 and what follows are missing or cut off"]);
    assert_eq!(told(&[cut.clone(), vec![0; 512]].concat()), ["11: 2048 bytes, and for 100 frames it should be 1536: what stands behind block 2 is too much"]);
    assert_eq!(told(&[]), ["11: it is empty"]);
    assert_eq!(told(&[1; 100]), ["11: 100 bytes, which is no multiple of 512"]);
    let mut twice = words(100, 3, true);
    twice[129 + 3] = 0;
    twice[129 + 6] = 0;
    twice[129 + 8] = 1 << 30;
    seal(&mut twice, 1);
    let told = told(&bytes(&twice));
    assert_eq!(told[..2], ["25: frames 0 and 1 both have decode index 0", "25: frames 0 and 2 both have decode index 0"]);
    assert_eq!(told[2], "26: all durations together are 4611686018427488004 ticks, and the most is 9007199254740992; the longest is 4611686018427388905, of decode index 2");
}
