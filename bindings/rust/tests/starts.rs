use retimer::{raw, Kind, Map, Refused, Starts};

/// A map by source start, output start and duration.
fn map(rows: &[(u64, u64, u64)]) -> Vec<u64> {
    rows.iter().enumerate().flat_map(|(k, &(q, o, d))| [k as u64, k as u64 + 1, q, 1, o, d]).collect()
}

/// How starts fare through a map of these numbers.
fn census(numbers: &[u64], timescale: u32, kind: Kind, length: u64, count: u64) -> Result<Starts, Refused> {
    retimer::census(&Map::from_numbers(timescale, numbers.to_vec()), kind, length, count)
}

fn starts(shifted: u64, clipped: u64, dropped: u64) -> Starts {
    Starts { shifted, clipped, dropped }
}

/// Every start by itself, by the caption rule of document 01.
fn one_by_one(rows: &[(u64, u64, u64)], timescale: u64, units: u64, length: u64, count: u64) -> Starts {
    let mut told = Starts::default();
    for s in 0..count {
        let (a, b) = (s * timescale / units, (s + length) * timescale / units);
        match rows.iter().find(|&&(q, _, d)| d > 0 && q < b && a < q + d) {
            None => told.dropped += 1,
            Some(&(q, _, d)) if a < q || q + d < b => told.clipped += 1,
            Some(_) => told.shifted += 1,
        }
    }
    told
}

const PLAY: [(u64, u64, u64); 2] = [(0, 0, 3003), (6006, 3003, 4004)];

#[test]
fn worked() {
    let play = map(&PLAY);
    assert_eq!(census(&play, 30000, Kind::Ass, 4, 40), Ok(starts(16, 12, 12)));
    assert_eq!(census(&play, 30000, Kind::Ass, 0, 12), Ok(starts(10, 0, 2)));
    assert_eq!(census(&play, 30000, Kind::Srt, 4, 0), Ok(starts(0, 0, 0)));
    assert_eq!(census(&[], 30000, Kind::Vtt, 4, 7), Ok(starts(0, 0, 7)));
}

#[test]
fn refusals() {
    let (play, turned) = (map(&PLAY), map(&[(20, 0, 5), (0, 5, 5)]));
    assert_eq!(census(&play, 0, Kind::Ass, 4, 40), Err(Refused(15)));
    assert_eq!(census(&play[..7], 30000, Kind::Ass, 4, 40), Err(Refused(15)));
    assert_eq!(census(&turned, 1000, Kind::Srt, 36_000_001, 0), Err(Refused(28)));
    assert_eq!(census(&play, 30000, Kind::Ass, 36_000_001, 0), Err(Refused(16)));
    assert_eq!(census(&play, 30000, Kind::Ass, 0, 36_000_001), Err(Refused(16)));
    assert_eq!(census(&play, 30000, Kind::Ass, 36_000_000, 5), Ok(starts(0, 5, 0)));
    // refused, the places that are lent stay as they were
    for (number, numbers, timescale) in [(15, &play, 0), (28, &turned, 1000), (16, &play, 30000)] {
        let mut told = starts(7, 8, 9);
        assert_eq!((raw::census(numbers, timescale, 3, 4, 40, &mut told), told), (number, starts(7, 8, 9)));
    }
}

#[test]
fn beside_a_plain_count() {
    let rows: Vec<_> = (0..60).map(|i| (700 * i, 400 * i, [0, 1, 399, 400][i as usize % 4])).collect();
    for (timescale, kind, units) in [(1000, Kind::Srt, 1000), (300, Kind::Vtt, 1000), (7001, Kind::Ass, 100)] {
        for length in [0, 1, 39, 400, 1900] {
            assert_eq!(census(&map(&rows), timescale, kind, length, 45_000), Ok(one_by_one(&rows, timescale.into(), units, length, 45_000)), "{timescale} {length}");
        }
    }
}
