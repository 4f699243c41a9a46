//! Every path of the library beside the Rust, in one run.
//! `tools/speed/run` lays this folder beside the oracle's copy of the Rust and gives it the folder of a play.
#![allow(dead_code, unexpected_cfgs, clippy::all)]
#[path = "../../cli.rs"]
mod cli;
#[path = "../../commands.rs"]
mod commands;
mod mp4io {
    #[path = "../../../mp4io/order_map.rs"]
    pub mod order_map;
    #[path = "../../../mp4io/read.rs"]
    pub mod read;
}
mod clock;
mod counts;
mod cues;
#[path = "../../dtvi.rs"]
mod dtvi;
mod here;
mod limits;
mod long_json;
mod maps;
#[path = "../../order.rs"]
mod order;
#[path = "../../plan.rs"]
mod plan;
mod play;
#[path = "../../segmap.rs"]
mod segmap;
mod subtitle;
mod table;
mod texts;
#[path = "../../trim.rs"]
mod trim;
mod words;

use play::Play;
use table::Table;

/// A part of the measurements, and whether it is left out where no part is named: it takes a minute or more.
struct Part {
    name: &'static str,
    long: bool,
    run: fn(&mut Table, &Play),
}

const PARTS: [Part; 6] = [
    Part { name: "texts", long: false, run: |table, _| all(table, &[texts::ordinary, texts::one_byte, texts::small]) },
    Part { name: "maps", long: false, run: of_maps },
    Part { name: "json", long: false, run: |table, _| maps::json(table) },
    Part { name: "play", long: false, run: play::play },
    Part { name: "cues", long: false, run: cues::cues },
    Part { name: "limits", long: true, run: |table, _| all(table, &[limits::all, counts::starts, counts::delays, long_json::all]) },
];

fn all(table: &mut Table, parts: &[fn(&mut Table)]) {
    parts.iter().for_each(|f| f(table));
}

fn of_maps(table: &mut Table, play: &Play) {
    maps::play(table, &play.sheet, &play.list);
    all(table, &[maps::list, maps::questions]);
}

fn main() {
    let words: Vec<String> = std::env::args().skip(1).collect();
    let [folder, chosen @ ..] = &words[..] else { panic!("speed FOLDER PART ..") };
    let play = Play::read(std::path::Path::new(folder));
    let mut table = Table::new();
    for part in &PARTS {
        if chosen.iter().any(|name| name == part.name) || chosen.is_empty() && !part.long {
            (part.run)(&mut table, &play);
        }
    }
    std::process::exit(i32::from(!table.all_met()));
}
