//! Times: ticks as h:mm:ss, and the round steps of an axis.

const SECOND: u128 = 1_000_000_000;

/// Ticks as nanoseconds, rounded down.
pub fn nanos(ticks: u64, timescale: u32) -> u128 {
    u128::from(ticks) * SECOND / u128::from(timescale.max(1))
}

/// Nanoseconds as h:mm:ss with so many decimals, rounded down.
pub fn clock(nanos: u128, decimals: u32) -> String {
    let (seconds, rest) = (nanos / SECOND, nanos % SECOND);
    let whole = format!("{}:{:02}:{:02}", seconds / 3600, seconds / 60 % 60, seconds % 60);
    match decimals.min(9) {
        0 => whole,
        n => format!("{whole}.{:0w$}", rest / 10u128.pow(9 - n), w = n as usize),
    }
}

/// A time in thousandths of a second, the nearest one.
pub fn thousandths(ticks: u64, timescale: u32) -> u128 {
    (nanos(ticks, timescale) + SECOND / 2000) / (SECOND / 1000)
}

/// A time to the nearest thousandth.
pub fn exact(ticks: u64, timescale: u32) -> String {
    clock(thousandths(ticks, timescale) * (SECOND / 1000), 3)
}

/// A time with so many decimals, 2 or 3, rounded down or up.
pub fn rounded(ticks: u64, timescale: u32, decimals: u32, up: bool) -> String {
    let (units, per) = (10u128.pow(decimals), u128::from(timescale.max(1)));
    let all = u128::from(ticks) * units;
    let whole = if up { all.div_ceil(per) } else { all / per };
    clock(whole * (SECOND / units), decimals)
}

/// A length: to the nearest second, below ten seconds to the thousandth.
pub fn brief(ticks: u64, timescale: u32) -> String {
    match nanos(ticks, timescale) {
        n if n < 10 * SECOND => exact(ticks, timescale),
        n => clock(n + SECOND / 2, 0),
    }
}

/// Where something begins and ends.
pub fn span(times: (u64, u64), timescale: u32) -> String {
    format!("{} – {}", exact(times.0, timescale), exact(times.1, timescale))
}

const ROUND: [u128; 17] = [1, 2, 5, 10, 15, 30, 60, 120, 300, 600, 900, 1800, 3600, 7200, 10800, 21600, 43200];

/// The smallest round step that is at least so many nanoseconds.
pub fn step(least: f64) -> u128 {
    let below = (0..9).flat_map(|k| [1, 2, 5].map(|m| m * 10u128.pow(k)));
    let above = (0..20).flat_map(|k| [1, 2, 5].map(|m| m * 86_400 * SECOND * 10u128.pow(k)));
    below.chain(ROUND.iter().map(|s| s * SECOND)).chain(above).find(|&s| s as f64 >= least).unwrap_or(u128::MAX >> 32)
}

/// The round times from one tick to another: how many ticks past the first, and the label.
pub fn marks(from: u64, to: u64, timescale: u32, step: u128) -> Vec<(f64, String)> {
    let (first, last) = (nanos(from, timescale), nanos(to, timescale));
    let decimals = (0..9).find(|&d| step.is_multiple_of(SECOND / 10u128.pow(d))).unwrap_or(9);
    let ticks = |n: u128| (n - first) as f64 / 1e9 * f64::from(timescale.max(1));
    (first.div_ceil(step)..=last / step).map(|k| (ticks(k * step), clock(k * step, decimals))).collect()
}
