use retimer::Judgement::{SurelyDropped, SurelyKept, Unsure};
use retimer::{Judgement, Map, Refused};
use std::ops::RangeInclusive;

/// Document 01's worked map: source ticks 0 to 3003 and 6006 to 10010.
const MAP: [u64; 12] = [0, 3, 0, 3, 0, 3003, 6, 10, 6006, 4, 3003, 4004];

/// What is sure through a map of these numbers.
fn rough(numbers: &[u64], start: RangeInclusive<u64>, end: RangeInclusive<u64>) -> Result<Judgement, Refused> {
    retimer::rough(&Map::from_numbers(30_000, numbers.to_vec()), start, end)
}

/// The first segment of positive length that ends after `a` and starts before `b`.
fn kept(map: &[u64], a: u64, b: u64) -> bool {
    map.chunks(6).any(|s| s[5] > 0 && a < s[2] + s[5] && s[2] < b)
}

#[test]
fn worked() {
    assert_eq!(rough(&MAP, 0..=3002, 1..=9), Ok(SurelyKept));
    assert_eq!(rough(&MAP, 0..=3003, 1..=9), Ok(Unsure));
    assert_eq!(rough(&MAP, 3003..=6000, 3003..=6006), Ok(SurelyDropped));
    assert_eq!(rough(&MAP, 3003..=6000, 3003..=6007), Ok(Unsure));
    assert_eq!(rough(&MAP, 2000..=6500, 6007..=7000), Ok(SurelyKept));
    assert_eq!(rough(&MAP, 7..=7, 5..=5), Ok(SurelyKept));
    assert_eq!(rough(&MAP, 0..=0, 0..=0), Ok(SurelyDropped));
    assert_eq!(rough(&MAP, 0..=u64::MAX, 0..=u64::MAX), Ok(Unsure));
    assert_eq!(rough(&[], 0..=u64::MAX, 0..=u64::MAX), Ok(SurelyDropped));
}

#[test]
fn refused() {
    #[allow(clippy::reversed_empty_ranges)]
    let turned = 5..=4;
    assert_eq!(rough(&MAP, turned.clone(), 0..=9), Err(Refused(16)));
    assert_eq!(rough(&MAP, 0..=9, turned.clone()), Err(Refused(16)));
    assert_eq!(rough(&MAP[..11], turned.clone(), turned), Err(Refused(15)));
    assert_eq!(rough(&[0, 1, 1 << 53, 1, 0, 1], 0..=0, 0..=0), Err(Refused(15)));
}

#[test]
fn every_choice() {
    let map = [0, 1, 3, 1, 0, 4, 1, 1, 5, 0, 4, 0, 1, 2, 10, 1, 4, 2];
    for a in 0..14u64 {
        for b in 0..14 {
            for c in a..14 {
                for d in b..14 {
                    let all: Vec<bool> = (a..=c).flat_map(|s| (b..=d).map(move |e| kept(&map, s, e))).collect();
                    let want = match (all.contains(&true), all.contains(&false)) {
                        (true, false) => SurelyKept,
                        (false, _) => SurelyDropped,
                        (true, true) => Unsure,
                    };
                    assert_eq!(rough(&map, a..=c, b..=d), Ok(want), "{a}..={c}, {b}..={d}");
                }
            }
        }
    }
}
