//! The commands: what each takes, and its help.
use crate::args::Args;
use crate::failure::Failure;
use crate::{census, check, completions, cues, delay, map, picture, retime, sheet, why};

pub struct Opt {
    pub name: &'static str,
    /// A longer name, or none.
    pub long: &'static str,
    /// What the value is; empty where there is none.
    pub value: &'static str,
    /// Whether several values can follow, and the option stand several times.
    pub many: bool,
    pub help: &'static str,
}

pub struct Command {
    pub name: &'static str,
    pub about: &'static str,
    pub form: &'static str,
    /// Words that are no options.
    pub words: &'static str,
    pub options: &'static [&'static Opt],
    pub more: &'static str,
    pub example: &'static str,
    pub run: fn(&Args) -> Result<(), Failure>,
}

impl Command {
    pub fn usage(&self) -> String {
        format!("bobbincrag {} {}", self.name, self.form)
    }
}

const fn opt(name: &'static str, value: &'static str, help: &'static str) -> Opt {
    Opt { name, long: "", value, many: false, help }
}

static SHEET: Opt = opt("--sheet", "FILE", "the frame sheet of the recording (docs/SHEET.md)");
static LIST: Opt = opt("--list", "FILE", "the trim list; without it, or blank, the whole recording is kept");
static MAP: Opt = opt("--map", "FILE", "a segment map as the cutter stores it (JSON), in place of sheet and list");
static INWARD: Opt = opt("--inward", "", "narrow the trims to cutting places; without it they are widened");
static KIND: Opt = opt("--kind", "KIND", "ass, srt or vtt; without it the file's ending tells");
static ENCODING: Opt = opt("--encoding", "NAME", "how captions are stored that are not UTF-8: utf-16, utf-16be, utf-32, windows-1252 or iso-8859-1");
static SUBS: Opt = opt("--subs", "FILE", "the captions");
static MANY_SUBS: Opt = Opt { name: "--subs", long: "", value: "FILE..", many: true, help: "the captions, one file or several" };
static OUT: Opt = Opt { name: "-o", long: "--output", value: "OUT", many: false, help: "write to this file, whole or not at all; without it to standard output" };
static OUTS: Opt = Opt { name: "-o", long: "--output", value: "OUT", many: false, help: "write to this file, whole or not at all; or to a folder, under the names of the caption files, as several need it" };
static WARNINGS: Opt = opt("--warnings", "FILE", "write the warnings there too: file, line, number, sentence and words, parted by tabs");
static DELAY: Opt = opt("--delay", "SECONDS", "let every caption come so much later before it is retimed, or earlier: +5.554, -0.5, to the thousandth");
static JSON: Opt = opt("--json", "PATH", "print the JSON that the cutter stores; PATH stands in its field input");
static JSON_LINES: Opt = opt("--json", "", "a line of JSON for each caption");
static TSV: Opt = opt("--tsv", "", "a line for each caption, parted by tabs, below a line with the names of the columns");
static FFMPEG: Opt = opt("--ffmpeg", "FILM", "print the list by which ffmpeg cuts this film, whose sheet it is");
static PACKETS: Opt = opt("--packets", "FILE", "what ffprobe printed of the film, where it is not to be asked");
static OPEN_GOP: Opt = opt("--open-gop", "", "let a cut begin at every key picture, for cutters that cope with open GOPs");
static LINE: Opt = opt("--line", "N", "tell of the caption at this line alone, with every kept stretch");
static BUDGET: Opt = opt("--budget", "N", "try so many shifts; without it all 12001");

const INPUTS: &str = "A FILE that is - is standard input, for one of them.";
const STATUS: &str = "Status 0: done; 1: refused, as `refused N: sentence`, or a file can't be read or written; 2: the command line is wrong.";

pub static ALL: [Command; 10] = [
    Command {
        name: "sheet",
        about: "write the frame sheet of a film",
        form: "(FILM | --packets FILE) [--open-gop] [-o OUT]",
        words: "FILM",
        options: &[&PACKETS, &OPEN_GOP, &OUT],
        more: "Asks ffprobe, which comes with ffmpeg, when each frame is shown and where it is stored. Without ffprobe run it elsewhere:\n  ffprobe -v error -select_streams V:0 -show_entries stream=time_base,r_frame_rate:packet=pts,dts,duration,flags -of json play.mp4 >play.json\nA frame lasts until the next one is shown. A cut can begin at a key picture behind which no frame is stored that is shown before it.",
        example: "bobbincrag sheet play.mp4 -o play.bin",
        run: sheet::run,
    },
    Command {
        name: "retime",
        about: "retime captions through a cut",
        form: "--sheet S [--list L] --subs C.. [-o OUT]",
        words: "",
        options: &[&SHEET, &LIST, &MAP, &INWARD, &MANY_SUBS, &KIND, &ENCODING, &DELAY, &OUTS, &WARNINGS],
        more: "Captions go to OUT or to standard output, and nothing else does. On standard error stand every warning, with its line and\nthe caption's words, and how many captions were shifted, clipped, dropped and passed. Where one text is refused, none is written.",
        example: "bobbincrag retime --sheet play.bin --list trim.txt --subs en.srt ja.srt de.vtt -o cut",
        run: retime::run,
    },
    Command {
        name: "map",
        about: "print the map of a cut",
        form: "--sheet S [--list L] [--json PATH | --ffmpeg FILM] [-o OUT]",
        words: "",
        options: &[&SHEET, &LIST, &MAP, &INWARD, &JSON, &FFMPEG, &PACKETS, &OUT],
        more: "Prints `timescale` and the ticks a second, then a line of six numbers for each kept stretch: start frame, end frame, source start,\nframe count, output start, duration. With --ffmpeg it prints a list, by which ffmpeg cuts the film:\n  ffmpeg -copyts -f concat -safe 0 -i list.txt -copypriorss 0 -c copy cut.mp4",
        example: "bobbincrag map --sheet play.bin --list trim.txt --json play.mp4 -o play.json",
        run: map::run,
    },
    Command {
        name: "check",
        about: "find every fault of a sheet, a list and captions",
        form: "[--sheet S] [--list L] [--subs C..]",
        words: "",
        options: &[&SHEET, &LIST, &INWARD, &MANY_SUBS, &KIND, &ENCODING],
        more: "Prints a line for each fault with its place, at most 50 of one number in a file. Whether trims fit the recording is looked at\nwhere sheet and list are given. Status 1 where there is a fault, and the last line sums up.",
        example: "bobbincrag check --sheet play.bin --list trim.txt --subs en.srt ja.ass",
        run: check::run,
    },
    Command {
        name: "why",
        about: "say what becomes of a caption, and why",
        form: "--sheet S [--list L] (--kind K START END | --subs C [--line N])",
        words: "START END",
        options: &[&SHEET, &LIST, &MAP, &INWARD, &KIND, &SUBS, &ENCODING, &LINE],
        more: "START and END are times of the whole recording, as they stand in captions. With --subs it tells of every caption that is dropped or\nclipped, with the kept stretches next to it.",
        example: "bobbincrag why --sheet play.bin --list trim.txt --kind ass 0:00:12.00 0:00:20.00",
        run: why::run,
    },
    Command {
        name: "cues",
        about: "list every caption with its fate and its new times",
        form: "--sheet S [--list L] --subs C.. (--json | --tsv) [-o OUT]",
        words: "",
        options: &[&SHEET, &LIST, &MAP, &INWARD, &MANY_SUBS, &KIND, &ENCODING, &JSON_LINES, &TSV, &OUT],
        more: "Of each caption: file, line, start and end, fate (shifted, clipped, dropped, passed), start and end in the cut, the kept stretch, counted from 1, how\nmuch was cut off at its start and its end, rounded up, warnings, and words. Times are seconds in JSON, and as in captions with --tsv.",
        example: "bobbincrag cues --sheet play.bin --list trim.txt --subs en.srt --tsv -o play.tsv",
        run: cues::run,
    },
    Command {
        name: "census",
        about: "say how a caption of a length would fare at every start",
        form: "--sheet S [--list L] [--kind K] LENGTH SPAN",
        words: "LENGTH SPAN",
        options: &[&SHEET, &LIST, &MAP, &INWARD, &KIND],
        more: "Tries every start in the first SPAN of the recording, one every 1/100 s, with --kind srt or vtt every 1/1000 s. Times are seconds, or minutes\nor hours before them: 2.5, 1:30, 1:00:00.",
        example: "bobbincrag census --sheet play.bin --list trim.txt 2 1:00:00",
        run: census::run,
    },
    Command {
        name: "delay",
        about: "find the shift of all captions that loses fewest",
        form: "--sheet S [--list L] --subs C [--budget N]",
        words: "",
        options: &[&SHEET, &LIST, &MAP, &INWARD, &SUBS, &KIND, &ENCODING, &BUDGET],
        more: "Tries shifts of 0, 1 and -1, 2 and -2 units, and so on to 6000; a unit is 1/100 s in ASS, else 1/1000 s. Lost is a caption that is shortened, that\nvanishes, or that would start or end before 0.",
        example: "bobbincrag delay --sheet play.bin --list trim.txt --subs en.srt",
        run: delay::run,
    },
    Command {
        name: "picture",
        about: "draw what became of the captions, as SVG",
        form: "--sheet S [--list L] --subs C [-o OUT]",
        words: "",
        options: &[&SHEET, &LIST, &MAP, &INWARD, &SUBS, &KIND, &ENCODING, &OUT],
        more: "Draws the recording above and the cut below, and each caption where it was and where it is; below the rows it lists what vanished, was\nclipped or is warned of. Any browser shows the file. On standard error stands how many captions were shifted, clipped, dropped and passed.",
        example: "bobbincrag picture --sheet play.bin --list trim.txt --subs en.srt -o play.svg",
        run: picture::run,
    },
    Command {
        name: "completions",
        about: "print a script that completes command lines",
        form: "bash",
        words: "SHELL",
        options: &[],
        more: "SHELL is bash.",
        example: "bobbincrag completions bash >~/.local/share/bash-completion/completions/bobbincrag",
        run: completions::run,
    },
];

/// `bobbincrag --help`.
pub fn overview() -> String {
    let mut text = "bobbincrag: captions follow a cut, to the last act\n\nusage: bobbincrag COMMAND ..\n\n".to_string();
    for command in &ALL {
        text += &format!("  {:12} {}\n", command.name, command.about);
    }
    text += "\nbobbincrag COMMAND --help says what a command takes, with an example. bobbincrag --version says the version.\n";
    text + STATUS + "\n"
}

/// The help of a command.
pub fn help(command: &Command) -> String {
    let mut text = format!("bobbincrag {}: {}\n\nusage: {}\n\n", command.name, command.about, command.usage());
    for opt in command.options {
        let names = [opt.name, opt.long].into_iter().filter(|n| !n.is_empty()).collect::<Vec<_>>().join(", ");
        text += &format!("  {:22} {}\n", format!("{names} {}", opt.value), opt.help);
    }
    if !command.options.is_empty() {
        text += "\n";
    }
    text += &format!("{}\n", command.more);
    if command.options.iter().any(|o| o.value.starts_with("FILE")) {
        text += &format!("{INPUTS}\n");
    }
    text + &format!("{STATUS}\n\nExample:\n  {}\n", command.example)
}
