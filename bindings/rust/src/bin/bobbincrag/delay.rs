//! `bobbincrag delay`: the shift of all captions that loses fewest.
use crate::args::Args;
use crate::cut;
use crate::failure::Failure;
use crate::input;
use crate::output;
use crate::progress::Progress;
use crate::stderr::say;
use crate::subs;
use retimer::captions::Times;
use retimer::{best_delay, Kind};

/// All shifts that there are to try.
const ALL: u32 = 12_001;

pub fn run(args: &Args) -> Result<(), Failure> {
    cut::named(args)?;
    let name = args.one("--subs").ok_or_else(|| args.usage("name the captions with --subs"))?;
    let kind = input::kind_of(args, name)?;
    let budget = match args.one("--budget") {
        Some(n) => n.to_str().and_then(|n| n.parse().ok()).ok_or_else(|| args.usage("--budget is how many shifts to try"))?,
        None => ALL,
    };
    let map = cut::read(args)?.map;
    let text = input::captions(args, name)?;
    let read = subs::read(kind, &text)?;
    let captions: Vec<[u64; 2]> = read.iter().filter_map(|c| times(c.times)).collect();
    if captions.len() < read.len() {
        say(format_args!("{} captions are left out: they have no times that are read", read.len() - captions.len()));
    }
    let progress = Progress::new(format!("trying shifts for {} captions", captions.len()), 0);
    let best = best_delay(&map, kind, &captions, budget).map_err(|r| Failure::refused(format!("{r} ({}: {})", text.name, too_many(captions.len()))));
    drop(progress);
    let best = best?;
    let (shift, floor) = (seconds(kind, best.delay), best.loss - best.off);
    let found = format!("Of {} shifts tried, {shift} s loses fewest: {} of {} captions.", best.tried, best.loss, captions.len());
    output::print(format!("{found} No shift at all loses fewer than {floor}.\n").as_bytes())
}

/// What to do where no shift is tried.
fn too_many(captions: usize) -> String {
    match captions {
        0..=4096 => "say --budget 1 or more".to_string(),
        n => format!("it has {n} captions, and 4096 at most can be shifted: split it in {} files", n.div_ceil(4096)),
    }
}

fn times(times: Times) -> Option<[u64; 2]> {
    match times {
        Times::Read { start, stop } => Some([start, stop]),
        Times::Passed { .. } => None,
    }
}

/// Units as seconds, with a sign.
fn seconds(kind: Kind, units: i64) -> String {
    let (a_second, sign) = (kind.units(), if units < 0 { '-' } else { '+' });
    let (whole, part) = (units.unsigned_abs() / a_second, units.unsigned_abs() % a_second);
    match kind {
        Kind::Ass => format!("{sign}{whole}.{part:02}"),
        Kind::Srt | Kind::Vtt => format!("{sign}{whole}.{part:03}"),
    }
}
