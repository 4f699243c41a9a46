//! The faults of trim lists and cuts, with their places.
mod common;

use common::{sheet, Random};
use retimer::{check_list, faults, Direction, Map};

fn told(list: &[u8]) -> Vec<String> {
    faults::in_list(list).iter().map(|f| format!("{}: {}", f.refused.number(), f.place)).collect()
}

#[test]
fn entries() {
    for good in ["", " \r\n", "Trim(0,2) ++ Trim(6,8)\r\n", "Trim(0,2)\r\n++\r\nTrim(6,8)\r\n", "\u{3000}Trim( 0 , 0 )\n"] {
        assert!(told(good.as_bytes()).is_empty(), "{good:?}");
    }
    assert_eq!(
        told(b"Trim(0,2) ++ Trim(5 ++\r\nTrim(9,a)++Trim(9,8)\n++Trim(3,4294967295) ++ ++ Trim(1,2) ++ Trim(10,11)"),
        [
            "2: entry 2, line 1: Trim(5",
            "3: entry 3, line 2: Trim(9,a)",
            "4: entry 4, line 2: Trim(9,8)",
            "5: entry 5, line 3: Trim(3,4294967295)",
            "2: entry 6, line 3: nothing stands there",
            "6: entry 7, line 3: Trim(1,2), behind entry 1: Trim(0,2)",
        ]
    );
    assert_eq!(told(b"Trim(0,2) ++ Trim(\xff,1)"), ["20: entry 2, line 1: Trim(\u{FFFD},1)"]);
    assert_eq!(told(b"Trim(0,1) ++ \xe3\x80\x80"), ["2: entry 2, line 1: nothing stands there"]);
}

#[test]
fn from_windows() {
    let mark = "2: line 1: the list begins with a byte order mark: save it without";
    assert_eq!(told("\u{FEFF}Trim(0,2)\r\n".as_bytes()), [mark]);
    assert_eq!(told("\u{FEFF}Trim(2,0)\r\n".as_bytes()), [mark, "4: entry 1, line 1: Trim(2,0)"]);
    assert_eq!(told("\u{FEFF}".as_bytes()), [mark, "2: entry 1, line 1: nothing stands there"]);
    let wide: Vec<u8> = [0xFEFF].into_iter().chain("Trim(0,2)".encode_utf16()).flat_map(u16::to_le_bytes).collect();
    assert!(told(&wide)[0].starts_with("20: entry 1, line 1: ") && told(&wide)[0].ends_with("(this is UTF-16: save it as UTF-8)"));
}

#[test]
fn limits() {
    let many: Vec<String> = (0..1_030).map(|i| format!("Trim({i},{i})")).collect();
    assert_eq!(told(many.join("++").as_bytes()), ["7: 1030 trims, of which 1024 are looked at"]);
    assert_eq!(told(format!("Trim(0,1){}", " ".repeat(65_530)).as_bytes()), ["7: 65539 bytes"]);
}

/// The first number of a random list is among those told, and where there is one entry at fault it is the first told.
#[test]
fn beside_the_check() {
    let parts: [&[u8]; 18] = [b"Trim(", b"0", b"5", b",", b")", b"++", b" ", b"Trim(1,2)", b"Trim(3,4)", b"Trim(9,9)", b"+", b"4294967295", b"4294967296", "\u{FEFF}".as_bytes(), b"\r\n", b"x", b"\xe3\x80\x80", b"\xff"];
    let mut random = Random(3);
    for k in 0..200_000 {
        // bytes that are not UTF-8 only in a part of the lists: they are told before all else
        let count = if k % 4 == 0 { 18 } else { 17 };
        let list: Vec<u8> = (0..random.below(9)).flat_map(|_| random.of(&parts[..count])).copied().collect();
        let found = faults::in_list(&list);
        let shown = String::from_utf8_lossy(&list);
        match check_list(&list) {
            Ok(()) => assert!(found.is_empty(), "{shown:?}"),
            Err(number) if number.number() == 20 => assert!(found.iter().any(|f| f.refused == number), "{shown:?}: {found:?}"),
            Err(number) => assert_eq!(found[0].refused, number, "{shown:?}: {found:?}"),
        }
    }
}

#[test]
fn cuts() {
    let sheet = sheet(100, 10);
    let told = |list: &str, direction| -> Vec<String> { faults::in_cut(&sheet, list.as_bytes(), direction).iter().map(|f| format!("{}: {}", f.refused.number(), f.place)).collect() };
    assert!(told("Trim(0,9) ++ Trim(20,29)", Direction::Outward).is_empty());
    assert_eq!(
        told("Trim(0,12) ++ Trim(15,20) ++ Trim(40,45)\n++ Trim(46,47)", Direction::Outward),
        ["8: entry 2, line 1: Trim(15,20), which becomes frames 10 to 29; entry 1, Trim(0,12), becomes frames 0 to 19", "8: entry 4, line 2: Trim(46,47), which becomes frames 40 to 49; entry 3, Trim(40,45), becomes frames 40 to 49",]
    );
    assert_eq!(told("Trim(0,12) ++ Trim(22,23) ++ Trim(31,32)", Direction::Inward), ["9: entry 2, line 1: Trim(22,23)", "9: entry 3, line 1: Trim(31,32)"]);
    let none = common::sheet(10, 100);
    let mut words: Vec<u32> = none.chunks(4).map(|c| u32::from_le_bytes(c.try_into().unwrap())).collect();
    words[129] &= 0x7fff_ffff;
    common::seal(&mut words, 1);
    let found = faults::in_cut(&common::bytes(&words), b"", Direction::Inward);
    assert_eq!((found[0].refused.number(), found[0].place.as_str()), (9, "the whole recording is kept"));
}

/// Frames stored in reverse: a trim that begins late in the recording begins early in the store, one that begins early has too few frames behind it (10).
#[test]
fn stored_in_reverse() {
    let mut words = common::words(10, 1, false);
    (0..10).for_each(|i| words[129 + 2 * i] = (9 - i as u32) | 1 << 31);
    common::seal(&mut words, 1);
    let sheet = common::bytes(&words);
    assert_eq!(Map::new(&sheet, b"Trim(0,2) ++ Trim(6,8)", Direction::Outward).unwrap_err().number(), 10);
    let found = faults::in_cut(&sheet, b"Trim(0,2) ++ Trim(6,8)", Direction::Outward);
    assert_eq!((found.len(), found[0].refused.number(), found[0].place.as_str()), (1, 10, "entry 1, line 1: Trim(0,2)"));
}
