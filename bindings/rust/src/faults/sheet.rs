//! The faults of a frame sheet. Round by round the proved check names a number, all places with that fault are found and set right in a copy, and it is asked
//! again.
use super::Fault;
use crate::sheet::{record, word, Head, Layout, BLOCK, MOST_FRAMES};
use crate::{check_sheet, Refused};

/// The most ticks of a recording, 2^53.
const MOST_TICKS: u128 = 1 << 53;
/// More rounds than there are numbers, some of which come twice.
const ROUNDS: usize = 12;

/// All faults of a sheet; none where it is sound.
///
/// ```
/// use retimer::{faults, Sheet};
/// let mut sheet = Sheet::in_order(30_000, (30_000, 1_001), vec![1_001; 10], [0, 3, 6]).to_bytes()?;
/// assert!(faults::in_sheet(&sheet).is_empty());
/// sheet[516] = 1;
/// let told: Vec<String> = faults::in_sheet(&sheet).iter().map(|f| f.to_string()).collect();
/// assert_eq!(told[0], "refused 12: a block of the sheet is damaged (block 1: its sum is 2147493704, and its words add up to 2147493705)");
/// assert_eq!(told[1], "refused 25: two frames of the sheet name the same stored picture (frames 0 and 1 both have decode index 1)");
/// # Ok::<(), retimer::Refused>(())
/// ```
pub fn in_sheet(sheet: &[u8]) -> Vec<Fault> {
    let mut copy = Copy { bytes: sheet.to_vec(), there: sheet.len() / BLOCK, readable: true };
    let mut all = Vec::new();
    for _ in 0..ROUNDS {
        let Err(Refused(number)) = check_sheet(&copy.bytes) else { break };
        let found = copy.round(number);
        if found.is_empty() {
            // the first number is told even where its place is not found
            if all.is_empty() {
                all.push(Fault::new(number, "its place is not known"));
            }
            break;
        }
        all.extend(found);
        if !copy.readable {
            break;
        }
    }
    all
}

/// A copy that is set right; `there` counts the blocks that the sheet really has. It is readable until something is found without which the rest can't be
/// looked at: block 0, the layout, the frame count.
struct Copy {
    bytes: Vec<u8>,
    there: usize,
    readable: bool,
}

impl Copy {
    /// The faults of a number, set right in the copy as far as that is possible.
    fn round(&mut self, number: u32) -> Vec<Fault> {
        match number {
            11 => self.length(),
            12 => self.blocks(),
            13 => self.head(),
            14 => self.records(),
            25 => self.twice(),
            26 => self.ticks(),
            _ => Vec::new(),
        }
    }

    fn set(&mut self, k: usize, value: u32) {
        self.bytes[4 * k..4 * k + 4].copy_from_slice(&value.to_le_bytes());
    }

    fn sum(&self, block: usize) -> u32 {
        (128 * block..128 * block + 127).fold(0, |sum, k| sum.wrapping_add(word(&self.bytes, k)))
    }

    fn seal(&mut self, block: usize) {
        self.set(128 * block, block as u32);
        let sum = self.sum(block);
        self.set(128 * block + 127, sum);
    }

    /// Changes a word; a sum that was right stays right, one that was wrong is still to be told.
    fn mend(&mut self, k: usize, value: u32) {
        let last = k / 128 * 128 + 127;
        let right = word(&self.bytes, last) == self.sum(k / 128);
        self.set(k, value);
        if right {
            self.set(last, self.sum(k / 128));
        }
    }

    /// The layout and the frame count, where the head's are within their limits.
    fn shape(&self) -> Option<(Layout, usize)> {
        let head = Head::of(&self.bytes)?;
        let n = head.frames as usize;
        (1..=MOST_FRAMES).contains(&n).then_some((head.layout, n)).filter(|_| word(&self.bytes, 5) <= 1)
    }

    fn length(&mut self) -> Vec<Fault> {
        let length = self.bytes.len();
        let Some((layout, n)) = self.shape() else {
            let what = if length == 0 { "it is empty".to_string() } else { format!("{length} bytes, which is no multiple of 512") };
            self.bytes.truncate(length / BLOCK * BLOCK);
            self.readable = length >= BLOCK;
            return vec![Fault::new(11, what)];
        };
        let due = layout.bytes(n);
        let blocks = match length.cmp(&due) {
            std::cmp::Ordering::Less => format!("block {} and what follows are missing or cut off", length / BLOCK),
            _ => format!("what stands behind block {} is too much", due / BLOCK - 1),
        };
        self.bytes.truncate(length / BLOCK * BLOCK);
        self.bytes.resize(due, 0);
        self.fill(layout, n, length / BLOCK);
        vec![Fault::new(11, format!("{length} bytes, and for {n} frames it should be {due}: {blocks}"))]
    }

    /// Sound records in the place of missing blocks: they name the samples that are not named.
    fn fill(&mut self, layout: Layout, n: usize, first: usize) {
        let from = (layout.per_block() * first.saturating_sub(1)).min(n);
        let mut named = vec![false; n];
        for i in 0..from {
            if let Some(sample) = named.get_mut(record(&self.bytes, layout, i).0.decode as usize) {
                *sample = true;
            }
        }
        let free: Vec<usize> = (0..n).filter(|k| !named[*k]).collect();
        for (i, decode) in (from..n).zip(free) {
            self.set(layout.place(i), decode as u32);
        }
        (first..self.bytes.len() / BLOCK).for_each(|b| self.seal(b));
    }

    fn blocks(&mut self) -> Vec<Fault> {
        let mut found = Vec::new();
        for b in 0..self.bytes.len() / BLOCK {
            let (number, told, sum) = (word(&self.bytes, 128 * b), word(&self.bytes, 128 * b + 127), self.sum(b));
            if number != b as u32 {
                found.push(Fault::new(12, format!("block {b}: its number is {number}")));
            }
            if told != sum {
                found.push(Fault::new(12, format!("block {b}: its sum is {told}, and its words add up to {sum}")));
            }
            self.seal(b);
        }
        found
    }

    fn head(&mut self) -> Vec<Fault> {
        let mut found = Vec::new();
        let layout = Head::of(&self.bytes).map_or(Layout::Short, |h| h.layout);
        let mut test = |k: usize, what: &str, least: u32, most: u32| {
            let value = word(&self.bytes, k);
            if !(least..=most).contains(&value) {
                let limits = if most == 0 { "0".to_string() } else { format!("{least} to {most}") };
                found.push((k, Fault::new(13, format!("word {k} of block 0, {what}: {value}, and it should be {limits}"))));
            }
        };
        test(5, "the layout", 0, 1);
        test(1, "ticks a second", 1, layout.most_timescale());
        test(2, "frames", 1, MOST_FRAMES as u32);
        (6..127).for_each(|k| test(k, "spare", 0, 0));
        for (k, _) in &found {
            match k {
                2 | 5 => self.readable = false,
                1 => self.set(1, 30_000),
                k => self.set(*k, 0),
            }
        }
        self.seal(0);
        found.into_iter().map(|(_, fault)| fault).collect()
    }

    fn records(&mut self) -> Vec<Fault> {
        let Some((layout, n)) = self.shape() else { return Vec::new() };
        let mut found = Vec::new();
        for i in 0..(self.there.saturating_sub(1) * layout.per_block()).min((self.bytes.len() / BLOCK - 1) * layout.per_block()) {
            let (frame, duration) = record(&self.bytes, layout, i);
            let at = layout.place(i);
            let place = format!("block {}, word {}", at / 128, at % 128);
            if i < n && frame.decode as usize >= n {
                found.push(Fault::new(14, format!("frame {i} ({place}): its decode index is {}, and it should be below {n}", frame.decode)));
            } else if i >= n && (frame.decode, frame.sync, duration) != (0, false, 0) {
                found.push(Fault::new(14, format!("the record at {place}, past the last frame: it should be zero")));
                (at..at + layout.words()).for_each(|k| self.mend(k, 0));
            }
        }
        self.rename(layout, n, false);
        found
    }

    /// Gives every frame whose decode index is out of range, or, where asked for, stands twice, one that no frame names.
    fn rename(&mut self, layout: Layout, n: usize, twice: bool) {
        let decodes: Vec<usize> = (0..n).map(|i| record(&self.bytes, layout, i).0.decode as usize).collect();
        let mut named = vec![false; n];
        let good: Vec<bool> = decodes.iter().map(|d| named.get_mut(*d).is_some_and(|seen| !std::mem::replace(seen, true) || !twice)).collect();
        let mut free = (0..n).filter(|k| !named[*k]);
        for i in (0..n).filter(|i| !good[*i]) {
            let sync = word(&self.bytes, layout.place(i)) & 1 << 31;
            self.mend(layout.place(i), sync | free.next().unwrap_or(0) as u32);
        }
    }

    fn twice(&mut self) -> Vec<Fault> {
        let Some((layout, n)) = self.shape() else { return Vec::new() };
        let mut first = vec![None; n];
        let mut found = Vec::new();
        for i in 0..n {
            let decode = record(&self.bytes, layout, i).0.decode as usize;
            match first.get_mut(decode) {
                Some(Some(before)) => found.push(Fault::new(25, format!("frames {before} and {i} both have decode index {decode}"))),
                Some(place) => *place = Some(i),
                None => {}
            }
        }
        self.rename(layout, n, true);
        found
    }

    fn ticks(&mut self) -> Vec<Fault> {
        let Some((layout, n)) = self.shape() else { return Vec::new() };
        let all: u128 = (0..n).map(|i| u128::from(record(&self.bytes, layout, i).1)).sum();
        if all <= MOST_TICKS {
            return Vec::new();
        }
        let (longest, i) = (0..n).map(|i| (record(&self.bytes, layout, i).1, i)).max().unwrap_or_default();
        (0..n).for_each(|i| (1..layout.words()).for_each(|k| self.set(layout.place(i) + k, 0)));
        (0..self.bytes.len() / BLOCK).for_each(|b| self.seal(b));
        vec![Fault::new(26, format!("all durations together are {all} ticks, and the most is {MOST_TICKS}; the longest is {longest}, of decode index {i}"))]
    }
}
