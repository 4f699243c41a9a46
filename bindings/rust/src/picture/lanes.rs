//! Bars that overlap, in lanes. What finds no lane becomes a block with a count.
use std::collections::BTreeSet;

/// Room between two bars of a lane.
const APART: f64 = 1.5;
/// The width of a block at least.
const BLOCK: f64 = 44.0;

/// A bar that wants a lane.
pub struct Want {
    pub from: f64,
    pub to: f64,
    /// What it may share a block with.
    pub group: (usize, bool),
    /// The most lanes that it may be put above.
    pub most: usize,
    /// Whether marks stand above it.
    pub marked: bool,
    /// The lane that it would like best.
    pub lane: Option<usize>,
}

/// Bars that found no lane, drawn as one.
pub struct Block {
    pub lane: usize,
    pub from: f64,
    pub to: f64,
    /// Which they are.
    pub members: Vec<usize>,
}

/// Bars in lanes.
pub struct Stack {
    /// The lane of each bar, where it has one.
    pub lane: Vec<Option<usize>>,
    pub blocks: Vec<Block>,
    /// For each lane, whether it has marks.
    pub marked: Vec<bool>,
}

/// Each bar, from left to right, in the lane that it would like best, or else in the first that is free.
pub fn stack(wants: &[Want]) -> Stack {
    let mut order: Vec<usize> = (0..wants.len()).collect();
    order.sort_by(|&a, &b| wants[a].from.total_cmp(&wants[b].from).then(a.cmp(&b)));
    let (mut ends, mut lane, mut over) = (Vec::<f64>::new(), vec![None; wants.len()], Vec::new());
    for k in order {
        let room = |l: &usize| ends.get(*l).is_none_or(|end| end + APART <= wants[k].from);
        let free = wants[k].lane.filter(room).unwrap_or_else(|| (0..).find(room).expect("a lane that is not there yet has room"));
        if free >= wants[k].most {
            over.push(k);
            continue;
        }
        ends.resize(ends.len().max(free + 1), f64::MIN);
        ends[free] = wants[k].to;
        lane[k] = Some(free);
    }
    let used = close_up(&mut lane);
    let blocks = blocks(wants, &over, used);
    let lanes = blocks.iter().map(|b| b.lane + 1).max().unwrap_or(used);
    let mut marked = vec![false; lanes];
    let in_lanes = lane.iter().enumerate().filter_map(|(k, l)| l.map(|l| (k, l)));
    for (k, l) in in_lanes.chain(blocks.iter().map(|b| (b.members[0], b.lane))) {
        marked[l] |= wants[k].marked;
    }
    Stack { lane, blocks, marked }
}

/// Leaves out lanes without a bar, and answers how many are left.
fn close_up(lane: &mut [Option<usize>]) -> usize {
    let used: BTreeSet<usize> = lane.iter().flatten().copied().collect();
    for l in lane.iter_mut().flatten() {
        *l = used.range(..*l).count();
    }
    used.len()
}

/// Bars without a lane, which come from left to right: a lane of blocks for each group, a block for those that touch.
fn blocks(wants: &[Want], over: &[usize], first: usize) -> Vec<Block> {
    let mut groups: Vec<_> = over.iter().map(|&k| wants[k].group).collect();
    groups.sort_unstable();
    groups.dedup();
    let mut out: Vec<Block> = Vec::new();
    for (g, group) in groups.iter().enumerate() {
        for &k in over.iter().filter(|&&k| wants[k].group == *group) {
            let (from, to) = (wants[k].from, wants[k].to.max(wants[k].from + BLOCK));
            match out.last_mut().filter(|b| b.lane == first + g && from <= b.to + APART) {
                Some(b) => {
                    b.to = b.to.max(to);
                    b.members.push(k);
                }
                None => out.push(Block { lane: first + g, from, to, members: vec![k] }),
            }
        }
    }
    out
}
