use retimer::{check_list, check_sheet, raw, ticks_to_units_ceil, ticks_to_units_floor, units_to_ticks, Kind, Refused};

/// A sheet of `n` frames, decode order = display order, each of 1001 ticks, sync at every third.
fn sheet(n: u32) -> Vec<u8> {
    let blocks = 1 + n.div_ceil(63);
    let mut words = vec![0u32; 128 * blocks as usize];
    words[1] = 30000;
    words[2] = n;
    words[3] = 30000;
    words[4] = 1001;
    for i in 0..n {
        let at = (128 * (1 + i / 63) + 1 + 2 * (i % 63)) as usize;
        words[at] = i | if i % 3 == 0 { 1 << 31 } else { 0 };
        words[at + 1] = 1001;
    }
    for b in 0..blocks as usize {
        seal(&mut words, b);
    }
    words.iter().flat_map(|w| w.to_le_bytes()).collect()
}

fn seal(words: &mut [u32], b: usize) {
    words[128 * b] = b as u32;
    words[128 * b + 127] = words[128 * b..128 * b + 127].iter().fold(0, |a, w| a.wrapping_add(*w));
}

fn changed(n: u32, at: usize, value: u32) -> Vec<u8> {
    let mut words: Vec<u32> = sheet(n).chunks(4).map(|c| u32::from_le_bytes(c.try_into().unwrap())).collect();
    words[at] = value;
    seal(&mut words, at / 128);
    words.iter().flat_map(|w| w.to_le_bytes()).collect()
}

#[test]
fn sheets() {
    for n in [1, 10, 63, 64, 126, 127, 1000] {
        assert_eq!(check_sheet(&sheet(n)), Ok(()), "{n} frames");
    }
    assert_eq!(check_sheet(&[]), Err(Refused(11)));
    assert_eq!(check_sheet(&sheet(10)[..1023]), Err(Refused(11)));
    assert_eq!(check_sheet(&sheet(64)[..1024]), Err(Refused(11)));
    let mut bad = sheet(10);
    bad[100] ^= 1;
    assert_eq!(check_sheet(&bad), Err(Refused(12)));
    assert_eq!(check_sheet(&changed(10, 1, 0)), Err(Refused(13)));
    assert_eq!(check_sheet(&changed(10, 1, 1_000_001)), Err(Refused(13)));
    assert_eq!(check_sheet(&changed(10, 126, 1)), Err(Refused(13)));
    assert_eq!(check_sheet(&changed(10, 129, 10)), Err(Refused(14)));
    assert_eq!(check_sheet(&changed(10, 128 + 1 + 2 * 10 + 1, 5)), Err(Refused(14)));
}

#[test]
fn samples_named_once() {
    let twice = changed(9, 129 + 2 * 8, 0);
    let above = changed(9, 129 + 2 * 8, 9);
    assert_eq!(check_sheet(&twice), Err(Refused(25)));
    assert_eq!(check_sheet(&above), Err(Refused(14)));
    for (s, number, n) in [(sheet(8), 0, 8_usize), (sheet(9), 0, 9), (sheet(1000), 0, 1000), (twice, 25, 9), (above, 14, 9)] {
        let need = n.div_ceil(8);
        for lent in [0, need - 1, need, need + 3] {
            let mut work = vec![170u8; lent];
            let got = raw::sheet_check(&s, &mut work);
            assert_eq!(
                got,
                if number == 14 {
                    14
                } else if lent < need {
                    16
                } else {
                    number
                },
                "{n} frames, {lent} bytes"
            );
            let zeros = if number == 14 || lent < need { 0 } else { need };
            assert!(work.iter().enumerate().all(|(k, b)| *b == if k < zeros { 0 } else { 170 }), "{n} frames, {lent} bytes");
        }
    }
}

#[test]
fn lists() {
    for good in ["Trim(0,2) ++ Trim(6,8)", "Trim(0,1)++Trim(2,+3)", "\u{3000}Trim( 0 , 0 )\n", "", " \n", "\u{3000}\t\u{85}"] {
        assert_eq!(check_list(good.as_bytes()), Ok(()), "{good}");
    }
    for (list, number) in [("++", 2), ("Trim(0,2)++ ", 2), ("\u{FEFF}", 2), ("Trim(0,++1)", 2), ("Trim(0,1,2)", 2), ("Trim(0,x)", 3), ("Trim(0,4294967296)", 3), ("Trim(2,1)", 4), ("Trim(0,4294967295)", 5), ("Trim(0,2)++Trim(2,3)", 6)] {
        assert_eq!(check_list(list.as_bytes()), Err(Refused(number)), "{list}");
    }
    assert_eq!(check_list(&[0xFF]), Err(Refused(20)));
    let many = |k: u32| (0..k).map(|i| format!("Trim({i},{i})")).collect::<Vec<_>>().join("++");
    assert_eq!(check_list(many(1024).as_bytes()), Ok(()));
    assert_eq!(check_list(many(1025).as_bytes()), Err(Refused(7)));
    assert_eq!(check_list(&vec![b' '; 65536]), Ok(()));
    assert_eq!(check_list(&vec![b' '; 65537]), Err(Refused(7)));
}

#[test]
fn conversions() {
    // document 01: 21 to 25 hundredths, moved from 6006 to 3003 at 30000 ticks a second, are 10 to 15
    let start = units_to_ticks(21, 30000, Kind::Ass).unwrap();
    let end = units_to_ticks(25, 30000, Kind::Ass).unwrap();
    assert_eq!((start, end), (6300, 7500));
    assert_eq!(ticks_to_units_floor(start - 3003, 30000, Kind::Ass), Ok(10));
    assert_eq!(ticks_to_units_ceil(end - 3003, 30000, Kind::Ass), Ok(15));
    assert_eq!(units_to_ticks(1 << 36, 1, Kind::Srt), Ok((1u64 << 36) / 1000));
    assert_eq!(units_to_ticks((1 << 36) + 1, 1, Kind::Srt), Err(Refused(16)));
    assert_eq!(ticks_to_units_floor(1 << 53, 1_000_000, Kind::Ass), Ok((1u64 << 53) / 10_000));
    assert_eq!(ticks_to_units_ceil((1 << 53) + 1, 1, Kind::Ass), Err(Refused(16)));
    assert_eq!(units_to_ticks(1 << 36, 1_000_000_000, Kind::Ass), Ok(687194767360000000));
    assert_eq!(units_to_ticks(1, 0, Kind::Ass), Err(Refused(15)));
    assert_eq!(units_to_ticks(1, 1_000_000_001, Kind::Ass), Err(Refused(15)));
    // WebVTT: 210 to 250 ms, moved in the same way, are 109 to 150
    let start = units_to_ticks(210, 30000, Kind::Vtt).unwrap();
    let end = units_to_ticks(250, 30000, Kind::Vtt).unwrap();
    assert_eq!((start, end), (6300, 7500));
    assert_eq!(ticks_to_units_floor(start - 3003, 30000, Kind::Vtt), Ok(109));
    assert_eq!(ticks_to_units_ceil(end - 3003, 30000, Kind::Vtt), Ok(150));
    assert_eq!(units_to_ticks((1 << 36) + 1, 1, Kind::Vtt), Err(Refused(16)));
    assert_eq!(raw::units_to_ticks(1 << 36, 1, 2), (1u64 << 36) / 1000);
    // a bad timescale comes before a bad kind, and the value of a refusal is 0
    assert_eq!(raw::units_number(u64::MAX, 0, 3), 15);
    assert_eq!(raw::units_number(5, 1, 3), 16);
    assert_eq!(raw::ticks_number(5, 1, 3), 16);
    assert_eq!(raw::ticks_number(5, 1, u32::MAX), 16);
    assert_eq!(raw::units_to_ticks(5, 1, 3), 0);
    assert_eq!(raw::ticks_to_units_floor(u64::MAX, 1, 0), 0);
    assert_eq!(raw::ticks_to_units_ceil(u64::MAX, 1, 0), 0);
}
