//! `bobbincrag sheet` and `map --ffmpeg`: films told by stored output of ffprobe. The expected numbers are worked out by hand from docs/SHEET.md, "From a film". tools/compare/film-test does the same with real films.
mod common;
use common::{run, run_with, Folder, Ran};
use retimer::film::{Fault, Film};
use retimer::{Layout, Sheet};

/// What ffprobe prints of a stream: packets as `(pts, flags)`, all of one duration.
fn told(base: &str, packets: &[(i64, &str)], duration: u64) -> String {
    let rows: Vec<String> = packets.iter().enumerate().map(|(d, (pts, flags))| row(Some(*pts), d as i64 * 40 - 80, Some(duration), flags)).collect();
    stream(base, &rows)
}

fn row(pts: Option<i64>, dts: i64, duration: Option<u64>, flags: &str) -> String {
    let pts = pts.map_or(String::new(), |p| format!("\"pts\": {p},\n            "));
    let duration = duration.map_or(String::new(), |d| format!("\"duration\": {d},\n            "));
    format!("        {{\n            {pts}\"dts\": {dts},\n            {duration}\"flags\": \"{flags}\"\n        }}")
}

fn stream(base: &str, rows: &[String]) -> String {
    let packets = rows.join(",\n");
    format!("{{\n    \"packets\": [\n{packets}\n    ],\n    \"programs\": [\n        {{ \"streams\": [ {{ \"time_base\": \"1/7\" }} ] }}\n    ],\n    \"streams\": [\n        {{\n            \"r_frame_rate\": \"25/1\",\n            \"time_base\": \"{base}\"\n        }}\n    ]\n}}\n")
}

/// Eight frames of 40 ms in the order I P B B I P B B, both key pictures without leading pictures.
const CLOSED: [(i64, &str); 8] = [(0, "K_"), (120, "__"), (40, "__"), (80, "__"), (160, "K_"), (280, "__"), (200, "__"), (240, "__")];
/// The same with a second key picture that is stored before two frames that are shown before it, as in open GOPs.
const OPEN: [(i64, &str); 8] = [(0, "K_"), (40, "__"), (160, "K_"), (80, "__"), (120, "__"), (280, "__"), (200, "__"), (240, "__")];

/// A sheet of a film, and what was said.
fn sheet(json: &str, more: &[&str]) -> (Sheet, Ran) {
    let folder = Folder::new();
    let (packets, out) = (folder.write("play.json", json), folder.path("play.bin"));
    let ran = run(&[&["sheet", "--packets", &packets, "-o", &out], more].concat());
    assert_eq!((ran.status, ran.text()), (0, ""), "{ran:?}");
    let err = ran.err.replace(&packets, "play.json");
    (Sheet::from_bytes(&folder.read("play.bin")).unwrap(), Ran { err, ..ran })
}

fn refused(json: &str, sentence: &str) {
    let ran = run_with(&["sheet", "--packets", "-"], json.as_bytes());
    ran.fails(1, &[&format!("standard input: {sentence}")]);
}

fn frames(sheet: &Sheet) -> Vec<(u32, bool)> {
    sheet.frames.iter().map(|f| (f.decode, f.sync)).collect()
}

#[test]
fn frames_that_are_stored_in_another_order() {
    let (sheet, ran) = sheet(&told("1/1000", &CLOSED, 40), &[]);
    assert_eq!((sheet.timescale, sheet.rate, &sheet.durations[..]), (1_000, (25, 1), &[40; 8][..]));
    assert_eq!(frames(&sheet), [(0, true), (2, false), (3, false), (1, false), (4, true), (6, false), (7, false), (5, false)]);
    assert_eq!(ran.err, "play.json: 8 frames, 1000 ticks a second, 00:00:00.320; a cut can begin at 2 of 2 key pictures\n");
}

/// Packets that say 33 ms each would be 4 ms short behind eight frames of 33 1/3 ms.
#[test]
fn a_frame_lasts_until_the_next_one_is_shown() {
    let packets: Vec<(i64, &str)> = [0, 33, 67, 100, 133, 167, 200, 233].into_iter().map(|pts| (pts, "K_")).collect();
    let (sheet, _) = sheet(&told("1/1000", &packets, 33), &[]);
    assert_eq!(sheet.durations, [33, 34, 33, 33, 34, 33, 33, 33]);
}

#[test]
fn durations_stand_at_the_stored_place() {
    // shown at 0, 10, 30, 60, stored as 0, 60, 10, 30
    let (sheet, _) = sheet(&told("1/600", &[(0, "K_"), (60, "__"), (10, "__"), (30, "__")], 100), &[]);
    assert_eq!(sheet.durations, [10, 100, 20, 30]);
}

#[test]
fn open_gops() {
    let (plain, ran) = sheet(&told("1/1000", &OPEN, 40), &[]);
    assert_eq!(frames(&plain), [(0, true), (1, false), (3, false), (4, false), (2, false), (6, false), (7, false), (5, false)]);
    assert!(ran.err.ends_with("a cut can begin at 1 of 2 key pictures\n"), "{ran:?}");
    let (all, ran) = sheet(&told("1/1000", &OPEN, 40), &["--open-gop"]);
    assert_eq!(frames(&all)[4], (2, true));
    assert!(ran.err.ends_with("a cut can begin at 2 of 2 key pictures\n"), "{ran:?}");
}

#[test]
fn a_film_that_begins_later() {
    let packets: Vec<(i64, &str)> = CLOSED.iter().map(|(pts, flags)| (pts + 1_400, *flags)).collect();
    let (sheet, ran) = sheet(&told("1/1000", &packets, 40), &[]);
    assert_eq!(sheet.durations, [40; 8]);
    ran.says(0, &["play.json: the first frame is shown at 1.400 s of the film: captions are counted from there; those that are counted from 0 are retimed with --delay -1.400"]);
}

#[test]
fn frames_that_are_not_shown() {
    let packets = [(-80, "KD"), (-40, "_D_"), (0, "K__"), (40, "___")];
    let (sheet, ran) = sheet(&told("1/1000", &packets, 40), &[]);
    assert_eq!(frames(&sheet), [(0, true), (1, false)]);
    ran.says(0, &["play.json: 2 frames are left out: the film says that they are not shown"]);
}

#[test]
fn no_key_picture() {
    let (_, ran) = sheet(&told("1/1000", &[(0, "__"), (40, "__")], 40), &[]);
    ran.says(0, &["play.json: a cut can begin nowhere, so every trim is widened to the whole film"]);
}

/// The last frame lasts as its packet says, or as long as the one before it.
#[test]
fn the_last_frame() {
    let rows = |last: Option<u64>| stream("1/1000", &[row(Some(0), 0, None, "K_"), row(Some(40), 40, None, "__"), row(Some(100), 80, last, "__")]);
    assert_eq!(sheet(&rows(Some(7)), &[]).0.durations, [40, 60, 7]);
    assert_eq!(sheet(&rows(None), &[]).0.durations, [40, 60, 60]);
    assert_eq!(sheet(&rows(Some(0)), &[]).0.durations, [40, 60, 60]);
    refused(&stream("1/1000", &[row(Some(0), 0, None, "K_")]), "how long its last frame is shown can't be told: store the film anew, `ffmpeg -i FILM -c copy NEW.mp4`, and take that");
}

/// The second layout where ticks or a duration need it.
#[test]
fn layouts() {
    assert_eq!(sheet(&told("1/1000000", &CLOSED, 40), &[]).0.layout(), Layout::Short);
    assert_eq!(sheet(&told("1/1200000", &CLOSED, 40), &[]).0.layout(), Layout::Long);
    let (long, _) = sheet(&told("1/1000", &[(0, "K_"), (5_000_000_000, "K_")], 40), &[]);
    assert_eq!((long.layout(), &long.durations[..]), (Layout::Long, &[5_000_000_000, 40][..]));
}

#[test]
fn what_is_refused() {
    let again = "store the film anew";
    refused(
        &stream("1/1000", &[row(Some(0), 0, Some(40), "K_"), row(None, 40, Some(40), "__")]),
        &format!("packet 2 has no time at which it is shown (pts): {again}, `ffmpeg -fflags +genpts -i FILM -c copy NEW.mkv`, or a bare stream with `mkvmerge -o NEW.mkv FILM`, and take that"),
    );
    refused(&told("1/1000", &[(0, "K_"), (80, "__"), (40, "__"), (80, "__")], 40), "packets 2 and 4 are shown at one time, 0.080 s: encode the film anew, `ffmpeg -i FILM -fps_mode cfr NEW.mp4`, and take that");
    for base in ["1001/30000", "1/0", "1/1000000001", "1/", "0/0", "", "1/-5"] {
        refused(&told(base, &CLOSED, 40), &format!("the time base is {base:?}, not 1/T: {again}, `ffmpeg -i FILM -c copy NEW.mkv`, and take that"));
    }
    refused(&told("1/1000", &[], 40), "no frame is shown");
    refused(&told("1/1000", &[(0, "KD")], 40), "no frame is shown");
    refused("{ \"packets\": [], \"streams\": [] }", "no video stream is told of");
    refused("{}", "no video stream is told of");
    for (text, at) in [("", 0), ("packets", 0), ("[]", 0), ("{ \"packets\": 1 }", 13), ("{} {}", 3), ("{ \"packets\": [ { \"pts\": 0.5 } ] }", 24)] {
        refused(text, &format!("it is not what ffprobe prints with -of json: it can't be read at byte {at}"));
    }
    // every beginning of an output is refused, and none ends otherwise
    let whole = told("1/1000", &CLOSED, 40);
    for end in 0..whole.trim_end().len() {
        assert!(matches!(Film::from_ffprobe(&whole.as_bytes()[..end]), Err(Fault::NotJson(_))), "{end}");
    }
}

/// What can't be in a sheet is refused before it is stored: too many ticks, too many frames.
#[test]
fn out_of_range() {
    let folder = Folder::new();
    let out = folder.path("play.bin");
    let far = told("1/1000", &[(i64::MIN, "K_"), (i64::MAX, "K_")], 0);
    refused(&far, "how long its last frame is shown can't be told: store the film anew, `ffmpeg -i FILM -c copy NEW.mp4`, and take that");
    let far = told("1/1000", &[(0, "K_"), (1 << 60, "K_")], 40);
    let ran = run_with(&["sheet", "--packets", "-", "-o", &out], far.as_bytes());
    ran.fails(1, &["refused 26: the recording, or what is kept of it, lasts longer than 2^53 ticks (standard input)"]);
    assert_eq!(folder.names(), Vec::<String>::new());
    let packets: Vec<String> = (0..=1_048_576).map(|k| format!("{{\"pts\":{k},\"flags\":\"K_\"}}")).collect();
    let json = |n: usize| format!("{{\"packets\":[{}],\"streams\":[{{\"time_base\":\"1/30\"}}]}}", packets[..n].join(","));
    assert_eq!(Film::from_ffprobe(json(1_048_577).as_bytes()).unwrap_err(), Fault::TooManyFrames(1_048_577));
    assert_eq!(Film::from_ffprobe(json(1_048_576).as_bytes()).unwrap().sheet(false).unwrap().to_bytes().map(|b| b.len()), Ok(512 * (1 + 16_645)));
}

#[test]
fn command_lines() {
    run(&["sheet"]).fails(2, &["bobbincrag sheet: name the film, or what ffprobe printed of it with --packets"]);
    run(&["sheet", "a.mp4", "--packets", "a.json"]).fails(2, &["bobbincrag sheet: it takes FILM or --packets, not both"]);
    run(&["sheet", "-"]).fails(2, &["bobbincrag sheet: a film is read from a file, not from standard input"]);
    let folder = Folder::new();
    let film = folder.write("play.mp4", "a film");
    run(&["sheet", &film, "-o", &film]).fails(2, &[&format!("bobbincrag sheet: {film} is read, and would be lost: write to another file")]);
    run(&["sheet", &folder.path("no.mp4")]).fails(1, &[&format!("cannot read {}: No such file or directory", folder.path("no.mp4"))]);
    run(&["sheet", &folder.path("")]).fails(1, &[&format!("cannot read {}: it is a folder", folder.path(""))]);
}

/// ffprobe is one child process, which is handed the film's name as it is, and no shell reads it.
#[cfg(unix)]
#[test]
fn ffprobe_is_asked() {
    use std::os::unix::fs::PermissionsExt;
    use std::process::Command;
    let folder = Folder::new();
    let probe = |script: &str| {
        let path = folder.write("ffprobe", format!("#!/bin/sh\nexec 2>&1\n{script}\n"));
        std::fs::set_permissions(path, std::fs::Permissions::from_mode(0o755)).unwrap();
    };
    let film = folder.write("-a 'film'; echo $HOME.mp4", "pictures");
    let asked = |path: &str| {
        let mut command = Command::new(common::COMMAND);
        command.args(["sheet", &film, "-o", &folder.path("play.bin")]).env("PATH", path);
        common::ran(command.output().unwrap())
    };
    let json = folder.write("told.json", told("1/1000", &CLOSED, 40));
    let path = format!("{}:/usr/bin:/bin", folder.path(""));
    probe(&format!("printf '%s\\n' \"$@\" >'{}'; cat '{json}'", folder.path("words")));
    assert_eq!(asked(&path).err, format!("{film}: 8 frames, 1000 ticks a second, 00:00:00.320; a cut can begin at 2 of 2 key pictures\n"));
    let words = String::from_utf8(folder.read("words")).unwrap();
    assert_eq!(words, format!("-v\nerror\n-select_streams\nV:0\n-show_entries\nstream=time_base,r_frame_rate:packet=pts,dts,duration,flags\n-of\njson\n-i\nfile:{film}\n"));
    std::fs::remove_file(folder.path("play.bin")).unwrap();
    probe("echo moov atom not found >&2; exit 1");
    std::fs::write(folder.path("ffprobe"), "#!/bin/sh\necho first >&2\necho moov atom not found >&2\nexit 1\n").unwrap();
    asked(&path).fails(1, &[&format!("ffprobe can't read {film}: moov atom not found")]);
    let ran = asked("/nowhere");
    assert!(ran.err.starts_with("cannot run ffprobe: No such file or directory: install ffmpeg, or run where it is installed\n  ffprobe -v error -select_streams V:0"), "{ran:?}");
    assert!(ran.status == 1 && !folder.names().contains(&"play.bin".to_string()));
}

/// The list for ffmpeg: 16 frames of 40 ms, a key picture every four, stored as I P B B, decoded 80 ms before they are shown.
#[test]
fn the_list_for_ffmpeg() {
    let folder = Folder::new();
    let packets: Vec<(i64, &str)> = (0..4).flat_map(|g| [(160 * g, "K_"), (160 * g + 120, "__"), (160 * g + 40, "__"), (160 * g + 80, "__")]).collect();
    let json = folder.write("play.json", told("1/1000", &packets, 40));
    let sheet = folder.path("play.bin");
    assert_eq!(run(&["sheet", "--packets", &json, "-o", &sheet]).status, 0);
    let list = folder.write("trim.txt", "Trim(4,7) ++ Trim(12,15)");
    let words = ["map", "--sheet", &sheet, "--list", &list, "--ffmpeg", "it's.mp4", "--packets", &json];
    // packets 7 and 8 are decoded at 200 and 240 ms; the stretch is shown from 160 to 320 ms
    let want = "ffconcat version 1.0\nfile 'it'\\''s.mp4'\ninpoint 0.160000\noutpoint 0.220000\nduration 0.160000\nfile 'it'\\''s.mp4'\ninpoint 0.480000\n";
    assert_eq!(run(&words).text(), want);
    assert_eq!(run(&words).err, "");
    run(&["map", "--sheet", &sheet, "--list", &list, "--ffmpeg", "play.TS", "--packets", &json])
        .says(0, &["play.TS: ffmpeg does not find key pictures exactly in such a file, and frames may be missing: store it anew, `ffmpeg -i play.TS -c copy NEW.mkv`, and take that"]);
    run(&["map", "--sheet", &sheet, "--ffmpeg", "a.mp4", "--json", "b"]).fails(2, &["bobbincrag map: it takes --json or --ffmpeg, not both"]);
    run(&["map", "--sheet", &sheet, "--packets", &json]).fails(2, &["bobbincrag map: --packets tells of the film of --ffmpeg"]);
    run(&["map", "--sheet", &sheet, "--list", &list, "--ffmpeg", "a\nb", "--packets", &json]).fails(1, &["b can't stand in a list: give the film another"]);
    // the map of another film
    let other = folder.write("other.json", told("1/1000", &CLOSED, 41));
    run(&["map", "--sheet", &sheet, "--list", &list, "--ffmpeg", "a.mp4", "--packets", &other])
        .fails(1, &[&format!("{other}: stretch 1 of the map does not begin and end where this film has its frames: take the sheet of this film, made without --open-gop")]);
    // packets without the times at which they are decoded
    let bare = folder.write("bare.json", String::from_utf8(folder.read("play.json")).unwrap().replace("\"dts\"", "\"d\""));
    run(&["map", "--sheet", &sheet, "--list", &list, "--ffmpeg", "a.mp4", "--packets", &bare])
        .fails(1, &[&format!("{bare}: packet 8 has no time at which it is decoded (dts): ask ffprobe for pts, dts, duration and flags, as docs/SHEET.md says")]);
}

/// The film's name in the list is found from the list's folder.
#[test]
fn the_films_name_in_the_list() {
    let folder = Folder::new();
    let json = folder.write("play.json", told("1/1000", &CLOSED, 40));
    let sheet = folder.path("play.bin");
    assert_eq!(run(&["sheet", "--packets", &json, "-o", &sheet]).status, 0);
    std::fs::create_dir(folder.path("act")).unwrap();
    folder.write("act/play.mp4", "");
    folder.write("play.mp4", "");
    let named = |film: &str, out: &str| {
        let mut command = std::process::Command::new(common::COMMAND);
        command.current_dir(folder.path("")).args(["map", "--sheet", "play.bin", "--ffmpeg", film, "--packets", "play.json", "-o", out]);
        assert_eq!(common::ran(command.output().unwrap()).status, 0);
        let text = String::from_utf8(folder.read(out)).unwrap();
        text.lines().nth(1).unwrap().to_string()
    };
    assert_eq!(named("act/play.mp4", "cut.txt"), "file 'act/play.mp4'");
    assert_eq!(named("act/play.mp4", "act/cut.txt"), "file 'play.mp4'");
    let whole = std::fs::canonicalize(folder.path("play.mp4")).unwrap();
    assert_eq!(named("play.mp4", "act/cut.txt"), format!("file '{}'", whole.display()));
}
