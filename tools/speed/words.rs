//! Texts and maps, the same at every run.
/// Numbers from a seed, by a linear rule.
pub struct Dice(u64);

impl Dice {
    pub fn new(seed: u64) -> Dice {
        Dice(seed)
    }

    /// A number below n.
    pub fn below(&mut self, n: u64) -> u64 {
        self.0 = self.0.wrapping_mul(6_364_136_223_846_793_005).wrapping_add(1_442_695_040_888_963_407);
        (self.0 >> 33) % n
    }
}

/// Stretches of 8,000 seconds together: a quarter of each is cut away at its end.
pub fn map(count: u64) -> Vec<u64> {
    let step = 40_000_000 / count * 6;
    (0..count).flat_map(|k| [0, 0, k * step, 0, k * (step * 3 / 4), step * 3 / 4]).collect()
}

const WORDS: [&str; 12] = ["the", "curtain", "rises", "slowly", "and", "nobody", "in", "the", "house", "dares", "to", "cough"];

fn say(dice: &mut Dice) -> String {
    let count = 3 + dice.below(12);
    let word = |dice: &mut Dice| match dice.below(13) {
        12 => "これは第一幕の終わりです",
        k => WORDS[k as usize],
    };
    (0..count).map(|_| word(dice)).collect::<Vec<_>>().join(" ")
}

pub fn stamp(kind: u32, t: u64) -> String {
    let (h, m, s, f) = (t / 3_600_000, t / 60_000 % 60, t / 1000 % 60, t % 1000);
    match kind {
        0 => format!("{h}:{m:02}:{s:02}.{:02}", f / 10),
        1 => format!("{h:02}:{m:02}:{s:02},{f:03}"),
        _ => format!("{h:02}:{m:02}:{s:02}.{f:03}"),
    }
}

pub const ASS_HEAD: &str = "[Events]\nFormat: Layer, Start, End, Style, Name, MarginL, MarginR, MarginV, Effect, Text\n";

/// Captions one behind the other: 3,000 of them lie within the map, most of 9,000 behind it.
pub fn text(kind: u32, count: u64) -> Vec<u8> {
    let (mut dice, mut out, mut t) = (Dice::new(7 + count), String::from(["", "", "WEBVTT\n\n"][kind as usize]), 0);
    if kind == 0 {
        out.push_str(ASS_HEAD);
    }
    for i in 1..=count {
        let a = t + dice.below(900);
        let b = a + 400 + dice.below(3600);
        t = b;
        let (a, b) = (stamp(kind, a), stamp(kind, b));
        match kind {
            0 => out.push_str(&format!("Dialogue: 0,{a},{b},Default,,0,0,0,,{}\n", say(&mut dice))),
            _ => out.push_str(&format!("{i}\n{a} --> {b}\n{}\n{}\n\n", say(&mut dice), say(&mut dice))),
        }
    }
    out.into_bytes()
}
