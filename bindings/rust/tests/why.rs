use retimer::Cause::{EndsBefore, NoLength, StartsAfter};
use retimer::{Fate, Kind, Map, Refused};

/// Document 01's worked map: source ticks 0 to 3003 and 6006 to 10010, 30000 a second.
const MAP: [u64; 12] = [0, 3, 0, 3, 0, 3003, 6, 10, 6006, 4, 3003, 4004];

/// The reason through a map of these numbers.
fn why(numbers: &[u64], timescale: u32, kind: Kind, start: u64, stop: u64) -> Result<Fate, Refused> {
    retimer::why(&Map::from_numbers(timescale, numbers.to_vec()), kind, start, stop)
}

fn kept(place: usize, start_cut: u64, end_cut: u64) -> Result<Fate, Refused> {
    Ok(Fate::Kept { place, start_cut, end_cut })
}

#[test]
fn table() {
    let ask = |start, stop| why(&MAP, 30000, Kind::Ass, start, stop);
    assert_eq!(ask(5, 25), kept(0, 0, 4497));
    assert_eq!(ask(12, 20), Ok(Fate::Dropped(vec![EndsBefore, StartsAfter])));
    assert_eq!(ask(21, 25), kept(1, 0, 0));
    assert_eq!(ask(20, 21), kept(1, 6, 0));
    assert_eq!(ask(0, 0), Ok(Fate::Dropped(vec![StartsAfter, StartsAfter])));
    assert_eq!(ask(5, 5), kept(0, 0, 0));
    assert_eq!(ask(7, 5), kept(0, 0, 0));
    for kind in [Kind::Srt, Kind::Vtt] {
        assert_eq!(why(&MAP, 30000, kind, 120, 200), Ok(Fate::Dropped(vec![EndsBefore, StartsAfter])));
    }
}

#[test]
fn causes() {
    let map = [0, 1, 30, 1, 0, 10, 1, 1, 20, 0, 10, 0];
    assert_eq!(why(&map, 1000, Kind::Srt, 50, 20), Ok(Fate::Dropped(vec![EndsBefore, NoLength])));
    assert_eq!(why(&map, 1000, Kind::Srt, 5, 30), Ok(Fate::Dropped(vec![StartsAfter, NoLength])));
    assert_eq!(why(&map, 1000, Kind::Srt, 5, 60), kept(0, 25, 20));
    assert_eq!(why(&[], 1000, Kind::Srt, 5, 60), Ok(Fate::Dropped(vec![])));
}

#[test]
fn refused() {
    assert_eq!(why(&MAP, 0, Kind::Ass, 1 << 37, 0), Err(Refused(15)));
    assert_eq!(why(&MAP, 1_000_000_001, Kind::Ass, 0, 0), Err(Refused(15)));
    assert_eq!(why(&MAP[..11], 30000, Kind::Ass, 0, 5), Err(Refused(15)));
    assert_eq!(why(&MAP, 30000, Kind::Ass, (1 << 36) + 1, 5), Err(Refused(16)));
    assert_eq!(why(&MAP, 30000, Kind::Ass, 5, (1 << 36) + 1), Err(Refused(16)));
    assert_eq!(why(&MAP, 1_000_000_000, Kind::Ass, 0, 1 << 36), kept(0, 0, 687_194_767_360_000_000 - 3003));
}
