use retimer::raw::{map_read, map_write};
use retimer::{About, Map, Refused, MAP_NUMBERS, MOST_PATH, MOST_TEXT};
use std::time::{Duration, Instant};

/// A map, and what stands beside it.
type Stored = (Map, About);

/// Document 01's worked map, as the cutter stores it.
fn worked() -> Stored {
    let map = Map::from_numbers(30000, vec![0, 3, 0, 3, 0, 3003, 6, 10, 6006, 4, 3003, 4004]);
    (map, About { rate: (30000, 1001), frames: 10, input: "a\u{7f}/\"\u{1f}é.mp4".into() })
}

fn written((map, about): &Stored) -> Result<String, Refused> {
    map.to_json(about)
}

const TEXT: &str = "{\n  \"video_timescale\": 30000,\n  \"frame_rate_num\": 30000,\n  \"frame_rate_den\": 1001,\n  \"input\": \"a\u{7f}/\\\"\\u001fé.mp4\",\n  \"total_frames\": 10,\n  \"segments\": [\n    {\n      \"source_start_frame\": 0,\n      \"source_end_frame\": 3,\n      \"source_start_dts\": 0,\n      \"frame_count\": 3,\n      \"output_start\": 0,\n      \"duration\": 3003\n    },\n    {\n      \"source_start_frame\": 6,\n      \"source_end_frame\": 10,\n      \"source_start_dts\": 6006,\n      \"frame_count\": 4,\n      \"output_start\": 3003,\n      \"duration\": 4004\n    }\n  ]\n}\n";

#[test]
fn written_and_read() {
    assert_eq!(written(&worked()).as_deref(), Ok(TEXT));
    assert_eq!(Map::from_json(TEXT.as_bytes()), Ok(worked()));
    let empty = (Map::from_numbers(30000, vec![]), worked().1);
    let text = written(&empty).unwrap();
    assert!(text.ends_with("\"segments\": []\n}\n"));
    assert_eq!(Map::from_json(text.as_bytes()), Ok(empty));
}

/// The longest text: every number has its most digits, and a path of bytes that are each six long.
fn longest() -> Stored {
    let (frame, tick) = (u64::from(u32::MAX), 1u64 << 52);
    let map = Map::from_numbers(1_000_000_000, [frame, frame, tick, frame, tick, tick].repeat(1024));
    (map, About { rate: (u32::MAX, u32::MAX), frames: u32::MAX, input: "\u{1}".repeat(1024) })
}

#[test]
fn longest_text() {
    let text = written(&longest()).unwrap();
    assert_eq!(text.len(), MOST_TEXT);
    assert_eq!(Map::from_json(text.as_bytes()), Ok(longest()));
}

#[test]
fn writer_refuses() {
    let (map, about) = worked();
    let long = About { input: "a".repeat(1025), ..about.clone() };
    let of = |numbers: Vec<u64>| Map::from_numbers(30000, numbers);
    assert_eq!(written(&(Map::from_numbers(0, map.numbers().to_vec()), long.clone())), Err(Refused(15)));
    assert_eq!(written(&(of(vec![0; 5]), about.clone())), Err(Refused(15)));
    assert_eq!(written(&(of(vec![1 << 32, 0, 0, 0, 0, 0]), about.clone())), Err(Refused(15)));
    assert_eq!(written(&(map.clone(), long)), Err(Refused(16)));
    let ask = |path: &[u8], text: &mut [u8]| map_write(map.numbers(), map.timescale(), (30000, 1001), path, about.frames, text);
    let mut text = vec![7; TEXT.len() + 3];
    assert_eq!(ask(&[0xff; 1025], &mut text), Err(Refused(16)));
    assert_eq!(ask(&[0xff], &mut []), Err(Refused(20)));
    assert_eq!(ask(about.input.as_bytes(), &mut text[..TEXT.len() - 1]), Err(Refused(16)));
    assert!(text.iter().all(|b| *b == 7));
    assert_eq!(ask(about.input.as_bytes(), &mut text[..TEXT.len()]), Ok(TEXT.len()));
    assert_eq!(ask(about.input.as_bytes(), &mut text), Ok(TEXT.len()));
    assert_eq!((&text[..TEXT.len()], &text[TEXT.len()..]), (TEXT.as_bytes(), &[7, 7, 7][..]));
}

#[test]
fn reader_refuses() {
    let ask = |text: &str, places: usize, bytes: usize| {
        let (mut map, mut path, mut told) = (vec![7; places], vec![7; bytes], [7; 4]);
        let [a, b, c, d] = &mut told;
        let found = map_read(text.as_bytes(), &mut map, &mut path, [a, b, c, d]);
        let untouched = map.iter().all(|n| *n == 7) && path.iter().all(|n| *n == 7) && told == [7; 4];
        assert_eq!(untouched, found.is_err());
        found
    };
    assert_eq!(ask(TEXT, MAP_NUMBERS, MOST_PATH), Ok((12, 11)));
    assert_eq!(ask(TEXT, MAP_NUMBERS - 1, MOST_PATH), Err(Refused(16)));
    assert_eq!(ask(TEXT, MAP_NUMBERS, MOST_PATH - 1), Err(Refused(16)));
    assert_eq!(ask(&TEXT.replace("scale\": 30000", "scale\": 0"), 0, 0), Err(Refused(15)));
    assert_eq!(ask(&TEXT.replace("scale\": 30000", "scale\": 030000"), 0, 0), Err(Refused(23)));
    assert_eq!(ask(&(TEXT.to_owned() + "x"), 0, 0), Err(Refused(23)));
    assert_eq!(ask("", 0, 0), Err(Refused(23)));
}

/// The reader ends on any bytes, and in linear time: 64 MiB take a fraction of a second, where a quadratic walk would take days.
#[test]
fn long_texts() {
    for unit in [b'[', b'{', b'"', b'a', b' ', b'0'] {
        for head in ["", "\"", "{\"input\":\"", "{\"x\":", "{\"segments\":["] {
            let mut text = head.as_bytes().to_vec();
            text.resize(64 << 20, unit);
            let start = Instant::now();
            assert_eq!(Map::from_json(&text), Err(Refused(23)));
            let time = start.elapsed();
            println!("{head:>14} then {}: 64 MiB {time:?}", unit as char);
            assert!(time < Duration::from_secs(60));
        }
    }
}
