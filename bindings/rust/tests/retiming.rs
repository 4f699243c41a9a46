use retimer::captions::Place;
use retimer::{raw, retime, Direction, Kind, Map, Refused, Retimed, Session, Stopped, Warning, Written, LEAST_OUTPUT, LEAST_PLACES, MAP_NUMBERS, MOST_WORK, SESSION_BYTES};

fn read(kind: &str, file: &str) -> Vec<u8> {
    std::fs::read(format!("{}/../../examples/play/{kind}/{file}", env!("CARGO_MANIFEST_DIR"))).unwrap()
}

fn play(kind: &str) -> Map {
    Map::new(&read(kind, "sheet.bin"), &read(kind, "trim.txt"), Direction::Outward).unwrap()
}

const KINDS: [(Kind, &str); 3] = [(Kind::Ass, "ass"), (Kind::Srt, "srt"), (Kind::Vtt, "vtt")];

/// The example play, in pieces of 1,024 bytes, is what stands in `expected`.
#[test]
fn the_play() {
    for (kind, name) in KINDS {
        let text = read(name, &format!("subs.{name}"));
        assert_eq!(retime(kind, &play(name), &text).unwrap().text, read(name, "expected"), "{name}");
    }
}

/// In pieces of any size, parked and resumed after every call, it is the same, with the same warnings and counts.
#[test]
fn the_play_in_pieces() {
    for (kind, name) in KINDS {
        let (map, text) = (play(name), read(name, &format!("subs.{name}")));
        let whole = retime(kind, &map, &text).unwrap();
        for size in [1, 7, 100, 1000, 1024, 1025, 5000] {
            let mut session = Session::open(kind, &map).unwrap();
            let mut all = Written::default();
            for piece in text.chunks(size) {
                session = Session::resume(&map, &session.park()).unwrap();
                let w = session.feed(piece).unwrap();
                all.text.extend(w.text);
                all.warnings.extend(w.warnings);
            }
            assert!(!session.has_ended());
            let w = session.finish().unwrap();
            all.text.extend(w.text);
            all.warnings.extend(w.warnings);
            assert_eq!(Retimed { text: all.text, warnings: all.warnings, counts: session.counts() }, whole, "{name} by {size}");
            assert!(session.has_ended());
            assert_eq!(session.taken(), text.len() as u64);
            assert_eq!(session.finish().unwrap_err().refused, Refused(18));
            assert_eq!(session.feed(b"").unwrap_err().refused, Refused(18));
            let mut again = Session::resume(&map, &session.park()).unwrap();
            assert_eq!((again.counts(), again.feed(b"x").unwrap_err().refused), (whole.counts, Refused(18)));
        }
    }
}

#[test]
fn maps() {
    let sheet = read("ass", "sheet.bin");
    assert_eq!(Map::new(&sheet, b"Trim(5,1)", Direction::Outward), Err(Refused(4)));
    assert_eq!(Map::new(&sheet[..512], b"", Direction::Inward), Err(Refused(11)));
    let (mut work, mut map, mut timescale, mut count) = (vec![7; MOST_WORK], vec![7; MAP_NUMBERS], 7, 7);
    for (direction, lent) in [(2, MAP_NUMBERS), (0, MAP_NUMBERS - 1)] {
        assert_eq!(raw::map_of(&sheet, b"", direction, &mut work, &mut map[..lent], &mut timescale, &mut count), 16);
        assert!(work.iter().all(|&b| b == 7));
    }
    assert_eq!(raw::map_of(&sheet, b"Trim(5,1)", 0, &mut work, &mut map, &mut timescale, &mut count), 4);
    assert_eq!((timescale, count), (7, 7));
    assert!(map.iter().all(|&n| n == 7));
    assert_eq!(raw::map_of(&sheet, &read("ass", "trim.txt"), 0, &mut work, &mut map, &mut timescale, &mut count), 0);
    assert_eq!((timescale, &map[..6 * count as usize]), (play("ass").timescale(), play("ass").numbers()));
    assert!(map[6 * count as usize..].iter().all(|&n| n == 7));
}

struct Lent {
    session: Vec<u8>,
    out: Vec<u8>,
    places: Vec<u64>,
    written: u64,
    warned: u64,
}

impl Lent {
    fn new(map: &Map) -> Lent {
        let mut session = vec![9; SESSION_BYTES + 3];
        assert_eq!(raw::open(1, map.timescale(), map.numbers(), &mut session), 0);
        assert_eq!(session[SESSION_BYTES..], [9; 3]);
        session.truncate(SESSION_BYTES);
        Lent { session, out: vec![9; LEAST_OUTPUT], places: vec![9; LEAST_PLACES], written: 9, warned: 9 }
    }

    fn feed(&mut self, map: &Map, piece: &[u8]) -> u32 {
        raw::feed(&mut self.session, map.numbers(), piece, &mut self.out, &mut self.places, &mut self.written, &mut self.warned)
    }

    /// Nothing was written and nothing was told, and the session is as it was.
    fn untouched(&self, session: &[u8]) {
        assert_eq!(self.session, session);
        assert!(self.out.iter().all(|&b| b == 9) && self.places.iter().all(|&n| n == 9));
        assert_eq!((self.written, self.warned), (9, 9));
    }
}

#[test]
fn refused_calls_write_nothing() {
    let map = play("srt");
    let mut lent = Lent::new(&map);
    let fresh = lent.session.clone();
    let bad = Map::from_numbers(1, vec![0; 5]);
    assert_eq!(lent.feed(&bad, b"1"), 15);
    lent.untouched(&fresh);
    assert_eq!(lent.feed(&map, &[b'1'; 1025]), 16);
    lent.untouched(&fresh);
    lent.out.truncate(LEAST_OUTPUT - 1);
    assert_eq!(lent.feed(&map, b"1"), 16);
    lent.untouched(&fresh);
    lent.out.push(9);
    for k in [0, 5, 700, SESSION_BYTES - 1] {
        let mut lent = Lent::new(&map);
        lent.session[k] ^= 64;
        let damaged = lent.session.clone();
        assert_eq!(lent.feed(&map, b"1"), 27);
        lent.untouched(&damaged);
    }
    let mut short = Lent::new(&map);
    short.session.pop();
    assert_eq!(short.feed(&map, b"1"), 27);
    short.untouched(&fresh[..SESSION_BYTES - 1]);
    let mut none = vec![9; SESSION_BYTES - 1];
    assert_eq!(raw::open(1, map.timescale(), map.numbers(), &mut none), 16);
    assert_eq!(raw::open(3, map.timescale(), map.numbers(), &mut none), 16);
    assert_eq!(raw::open(3, 0, map.numbers(), &mut none), 15);
    assert!(none.iter().all(|&b| b == 9));
}

/// The words of a block and its sum, so that a forged session has good blocks.
fn forge(session: &mut [u8], word: usize, value: u32) {
    session[4 * word..4 * word + 4].copy_from_slice(&value.to_le_bytes());
    let sum = (0..127).fold(0u32, |s, k| s.wrapping_add(u32::from_le_bytes(session[4 * k..4 * k + 4].try_into().unwrap())));
    session[508..512].copy_from_slice(&sum.to_le_bytes());
}

/// A session forged within 17's limits: the call that takes it out of them answers and writes as ever, the next one is 17.
#[test]
fn forged_within_the_limits() {
    let map = Map::from_numbers(1000, vec![0, 100, 0, 100, 0, 100_000]);
    let mut lent = Lent::new(&map);
    assert_eq!(lent.feed(&map, b"1\n00:00:01,000 --> 00:00:02,000\nA\n"), 0);
    assert_eq!((lent.written, lent.warned), (0, 0));
    let taken = u32::from_le_bytes(lent.session[24..28].try_into().unwrap());
    for word in 8..=10 {
        forge(&mut lent.session, word, taken);
    }
    assert_eq!(raw::finish(&mut lent.session, map.numbers(), &mut lent.out, &mut lent.places, &mut lent.written, &mut lent.warned), 0);
    assert!(lent.out[..lent.written as usize].starts_with(b"1\n00:00:01,000 --> 00:00:02,000\n"));
    let (after, written) = (lent.session.clone(), lent.written);
    assert_eq!(lent.feed(&map, b"1"), 17);
    assert_eq!((&lent.session, lent.written), (&after, written));
    let mut again = Lent::new(&map);
    forge(&mut again.session, 8, 1);
    let forged = again.session.clone();
    assert_eq!(again.feed(&map, b"1"), 17);
    again.untouched(&forged);
}

#[test]
fn a_fault_tells_what_stands_before_it() {
    let map = play("srt");
    let mut session = Session::open(Kind::Srt, &map).unwrap();
    let stopped = session.feed(b"text\n\n1\n00:00:01,000 --> nothing\n\n").unwrap_err();
    let place = Some(Place { line: 4, words: "00:00:01,000 --> nothing".into() });
    assert_eq!(stopped, Stopped { refused: Refused(22), place, before: Written { text: b"text\n\n".to_vec(), warnings: vec![] } });
    assert_eq!(session.feed(b"1").unwrap_err(), Stopped { refused: Refused(18), place: None, before: Written::default() });
    let mut session = Session::open(Kind::Ass, &map).unwrap();
    let told = session.feed(b"[Events]\nDialogue: 0,0:00:01.00,0:00:02.00,x\n").unwrap();
    assert_eq!(told.warnings, [Warning { number: 1, line: 2 }]);
}

/// Whatever the pieces, a fault is told with the same line and words as in the whole text.
#[test]
fn a_fault_has_its_place() {
    let long = format!("[Script Info]\n{}\n", "x".repeat(4_096));
    let texts: [(Kind, &[u8], u32, u64, &str); 7] = [
        (Kind::Srt, "\u{FEFF}1\n00:00:01,000 --> 00:00:02,000\nA\n\n\n2\n00:00:60,000 --> 00:00:02,000\n<i>B</i>\nC".as_bytes(), 22, 7, "00:00:60,000 --> 00:00:02,000 B C"),
        (Kind::Vtt, b"WEBVTT\n\n00:01.000 --> 00:02.000\nA\n\nx\n0:01.000 --> 00:02.000\nB\n\nC\n", 22, 7, "0:01.000 --> 00:02.000 B"),
        (Kind::Ass, b"[Events]\nFormat: Start,End,Text\nDialogue: 0:00:01.00,0:00:02.00,A\nDialogue: 0:00:01.00,0:00:02,{\\b1}B,\\NC\n", 22, 4, "Dialogue: 0:00:01.00,0:00:02,B, C"),
        (Kind::Srt, b"1\n00:00:01,000 --> 00:00:02,000\nCaf\xe9\n\n", 20, 3, "Caf\u{FFFD}"),
        (Kind::Ass, long.as_bytes(), 19, 2, &format!("{}..", "x".repeat(60))),
        (Kind::Vtt, b"WEBVTT2\n", 24, 1, "WEBVTT2"),
        (Kind::Vtt, "\u{FEFF}".as_bytes(), 24, 1, ""),
    ];
    let map = play("srt");
    for (kind, text, number, line, words) in texts {
        let whole = retime(kind, &map, text).unwrap_err();
        assert_eq!((whole.refused, whole.place), (Refused(number), Some(Place { line, words: words.into() })), "{kind:?}");
        for size in [1, 2, 7, 100, 5000] {
            let mut session = Session::open(kind, &map).unwrap();
            let fed = text.chunks(size).find_map(|piece| session.feed(piece).err());
            let stopped = fed.unwrap_or_else(|| session.finish().unwrap_err());
            let place = stopped.place.unwrap();
            // a line that is too long is told before all of it is there
            assert_eq!((stopped.refused, place.line), (Refused(number), line), "{kind:?} by {size}");
            assert!(place.words == words || number == 20 && words.starts_with(&place.words), "{kind:?} by {size}: {}", place.words);
        }
    }
}

/// Bytes that are no parked session are refused when they are resumed.
#[test]
fn resumed() {
    let map = play("srt");
    let parked = Session::open(Kind::Srt, &map).unwrap().park();
    let refused = |bytes: &[u8]| Session::resume(&map, bytes).err();
    assert_eq!(refused(&parked), None);
    assert_eq!(refused(&parked[1..]), Some(Refused(27)));
    let mut damaged = parked;
    damaged[700] = 1;
    assert_eq!(refused(&damaged), Some(Refused(27)));
    let mut forged = parked;
    forge(&mut forged, 8, 1);
    assert_eq!(refused(&forged), Some(Refused(17)));
}

/// A sheet of `n` frames of 1001 ticks, 30000 a second, in decode order, sync at every third.
fn sheet(n: u32) -> Vec<u8> {
    let mut words = vec![0u32; 128 * (1 + n.div_ceil(63)) as usize];
    words[1..5].copy_from_slice(&[30000, n, 30000, 1001]);
    for i in 0..n {
        let at = (128 * (1 + i / 63) + 1 + 2 * (i % 63)) as usize;
        words[at] = i | if i % 3 == 0 { 1 << 31 } else { 0 };
        words[at + 1] = 1001;
    }
    for (b, block) in words.chunks_mut(128).enumerate() {
        block[0] = b as u32;
        block[127] = block[..127].iter().fold(0, |a, w| a.wrapping_add(*w));
    }
    words.iter().flat_map(|w| w.to_le_bytes()).collect()
}

fn srt(at: u64) -> String {
    format!("{:02}:{:02}:{:02},{:03}", at / 3_600_000, at / 60_000 % 60, at / 1000 % 60, at % 1000)
}

/// Three hours, 324,000 frames, 30 stretches: the map is as worked out, and a caption in each stretch moves by its exact shift.
#[test]
fn three_hours() {
    let list: Vec<String> = (0..30).map(|k| format!("Trim({},{})", 10_800 * k, 10_800 * k + 8_099)).collect();
    let map = Map::new(&sheet(324_000), list.join("++").as_bytes(), Direction::Outward).unwrap();
    let expected: Vec<u64> = (0..30u64).flat_map(|k| [10_800 * k, 10_800 * k + 8_100, 10_800 * 1001 * k, 8_100, 8_100 * 1001 * k, 8_100 * 1001]).collect();
    assert_eq!((map.timescale(), map.numbers()), (30_000, &expected[..]));
    let (mut text, mut moved) = (String::new(), String::new());
    for k in 0..30u64 {
        let (start, end) = (360_360 * k + 1_234, 360_360 * k + 5_678);
        let shift = 2_700 * 1001 * k;
        text += &format!("{k}\n{} --> {}\nWords\n\n", srt(start), srt(end));
        moved += &format!("{k}\n{} --> {}\nWords\n\n", srt((30 * start - shift) / 30), srt((30 * end - shift).div_ceil(30)));
    }
    assert_eq!(String::from_utf8(retime(Kind::Srt, &map, text.as_bytes()).unwrap().text).unwrap(), moved);
}
