use retimer::{raw, BestDelay, Kind, Map, Refused};

/// A map by source start, output start and duration.
fn map(rows: &[(u64, u64, u64)]) -> Vec<u64> {
    rows.iter().enumerate().flat_map(|(k, &(q, o, d))| [k as u64, k as u64 + 1, q, 1, o, d]).collect()
}

/// The delay through a map of these numbers.
fn best_delay(numbers: &[u64], timescale: u32, kind: Kind, captions: &[[u64; 2]], budget: u32) -> Result<BestDelay, Refused> {
    retimer::best_delay(&Map::from_numbers(timescale, numbers.to_vec()), kind, captions, budget)
}

fn found(delay: i64, loss: u32, tried: u32, off: u32) -> BestDelay {
    BestDelay { delay, loss, tried, off }
}

const PLAY: [(u64, u64, u64); 2] = [(0, 0, 3003), (6006, 3003, 4004)];

#[test]
fn worked() {
    let play = map(&PLAY);
    assert_eq!(best_delay(&play, 30000, Kind::Ass, &[[9, 12]], 5), Ok(found(-2, 0, 5, 0)));
    assert_eq!(best_delay(&play, 30000, Kind::Ass, &[[9, 12]], 3), Ok(found(0, 1, 3, 1)));
    assert_eq!(best_delay(&play, 30000, Kind::Ass, &[], u32::MAX), Ok(found(0, 0, 12001, 0)));
    assert_eq!(best_delay(&map(&[(0, 0, 3)]), 1000, Kind::Srt, &[[6000, 6003]], 12001), Ok(found(-6000, 0, 12001, 0)));
    assert_eq!(best_delay(&map(&[(6000, 0, 3)]), 1000, Kind::Vtt, &[[0, 3]], 12000), Ok(found(6000, 0, 12000, 0)));
    assert_eq!(best_delay(&[], 1000, Kind::Vtt, &[[0, 3], [3, 3]], 2), Ok(found(0, 2, 2, 1)));
}

#[test]
fn refusals() {
    let play = map(&PLAY);
    assert_eq!(best_delay(&play, 0, Kind::Ass, &[], 0), Err(Refused(15)));
    assert_eq!(best_delay(&play[..7], 30000, Kind::Ass, &[], 0), Err(Refused(15)));
    assert_eq!(best_delay(&play, 30000, Kind::Ass, &[[(1 << 36) + 1, 0]], 0), Err(Refused(29)));
    assert_eq!(best_delay(&play, 30000, Kind::Ass, &vec![[5, 6]; 4097], 1), Err(Refused(29)));
    assert_eq!(best_delay(&play, 30000, Kind::Ass, &vec![[5, 6]; 4096], 1), Ok(found(0, 0, 1, 0)));
    assert_eq!(best_delay(&play, 30000, Kind::Ass, &[[5, (1 << 36) + 1]], 1), Err(Refused(16)));
    // refused, the places that are lent stay as they were
    for (number, timescale, kind, captions, budget) in [(15, 0, 3, &[5][..], 0), (29, 30000, 3, &[5], 0), (16, 30000, 0, &[5], 1), (16, 30000, 3, &[], 1)] {
        let mut told = found(-7, 7, 8, 9);
        assert_eq!((raw::flat_delay(&play, timescale, kind, captions, budget, &mut told), told), (number, found(-7, 7, 8, 9)));
    }
}

/// A caption moved to s and e, by the rules of document 01 and request 2.14.
fn lost(rows: &[(u64, u64, u64)], timescale: i64, units: i64, s: i64, e: i64) -> bool {
    if s < 0 || e < 0 {
        return true;
    }
    let (a, b) = ((s * timescale / units) as u64, (e * timescale / units) as u64);
    match rows.iter().find(|&&(q, _, d)| d > 0 && q < b && a < q + d) {
        None => true,
        Some(&(q, _, d)) => a < q || q + d < b,
    }
}

#[test]
fn beside_every_delay_tried() {
    // segments that turn back, overlap and have no length
    let rows: Vec<_> = (0..40u64).map(|i| (7919 * i % 30_000, 400 * i, [0, 1, 399, 2_000, 40][i as usize % 5])).collect();
    let captions: Vec<[u64; 2]> = (0..60u64).map(|i| [4_001 * i % 33_000, 4_001 * i % 33_000 + 60 * i % 700]).chain([[500, 480], [9_000, 9_000]]).collect();
    for (timescale, kind, units) in [(1000, Kind::Srt, 1000), (300, Kind::Vtt, 1000), (24_000, Kind::Ass, 100)] {
        for budget in [1, 2, 500, 12_001, 20_000] {
            let tried = budget.min(12_001);
            let loss = |d: i64| captions.iter().filter(|c| lost(&rows, timescale.into(), units, c[0] as i64 + d, c[1] as i64 + d)).count() as u32;
            let delays = (0..i64::from(tried)).map(|k| if k % 2 == 1 { (k + 1) / 2 } else { -k / 2 });
            let best = delays.map(|d| (loss(d), d)).reduce(|x, y| if y.0 < x.0 { y } else { x }).unwrap();
            let floor = captions.iter().filter(|c| c[0] < c[1] && rows.iter().all(|r| (c[1] - c[0]) * u64::from(timescale) / units as u64 > r.2)).count() as u32;
            assert_eq!(best_delay(&map(&rows), timescale, kind, &captions, budget), Ok(found(best.1, best.0, tried, best.0 - floor)), "{timescale} {budget}");
        }
    }
}
