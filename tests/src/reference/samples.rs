//! Random settings and sound directories with corners drawn often.
use super::builder::{home, Arrangement, Plan, Resident, Totals};
use super::crowding;
use super::directory::word;
use super::marks::{self, PINNED};
use super::rng::Rng;
use super::settings::{sum_limit, MAX_AMAX, MAX_B, MAX_CMAX, MAX_COUNT, MAX_M};
use super::stack::work;
use crate::Settings;

/// Legal settings for `n` cache blocks.
pub fn settings(rng: &mut Rng, n: u32) -> Settings {
    let (nnew, nold) = match rng.below(6) {
        // no new section; all old; no middle section; all but one new; as free as the limits
        0 => (0, rng.within(1, n)),
        1 => (0, n),
        2 => {
            let nold = rng.within(1, n);
            (n - nold, nold)
        }
        3 => (n - 1, 1),
        _ => {
            let nold = rng.within(1, n);
            (rng.within(0, n - nold), nold)
        }
    };
    let cmax = match rng.below(4) {
        0 => 1,
        1 => MAX_CMAX,
        2 => rng.within(1, MAX_CMAX),
        _ => rng.within(2, 5),
    };
    let amax = match rng.below(4) {
        0 => rng.within(1, 3),
        1 => MAX_AMAX,
        _ => rng.within(1, MAX_AMAX),
    };
    let m = match rng.below(6) {
        0 => rng.within(1, MAX_M),
        1 => n,
        2 => rng.within(n, 2 * n),
        3 => rng.within(1, n),
        _ => MAX_M,
    };
    let b = if rng.one_in(4) { MAX_B } else { rng.within(1, MAX_B) };
    Settings { n, nnew, nold, cmax, amax, b, m }
}

/// A sound directory with these settings.
pub fn plan(rng: &mut Rng, s: Settings) -> Plan {
    let most = s.n.min(s.m);
    let r = match rng.below(4) {
        0 => rng.within(0, most),
        1 => rng.within(0, most.min(3)),
        _ => most,
    };
    plan_of(rng, s, r)
}

/// A sound directory with `r` residents, which N and M must have room for.
pub fn plan_of(rng: &mut Rng, s: Settings, r: u32) -> Plan {
    // now and then all blocks in one bucket
    let one_bucket = s.n <= 64 && s.m == MAX_M && rng.one_in(3);
    let blocks = different_blocks(rng, s, r, |block| !one_bucket || home(s, block) == 0);
    plan_with(rng, s, blocks)
}

/// A sound directory with these different blocks, most recent first.
pub fn plan_with(rng: &mut Rng, s: Settings, blocks: Vec<u32>) -> Plan {
    let r = blocks.len() as u32;
    let marked = |block| Resident { block, count: 1, marks: rng.pick(&marks::LEGAL) };
    let mut residents: Vec<Resident> = blocks.into_iter().map(marked).collect();
    raise_counts(rng, s, &mut residents);
    pin(rng, s, &mut residents);
    let modified = residents.iter().filter(|resident| resident.is_modified()).count() as u64;
    Plan { settings: s, totals: totals(rng, modified), arrangement: arrangement(rng, s.n, r), residents }
}

/// Blocks as they come.
pub fn scattered_blocks(rng: &mut Rng, s: Settings, r: u32) -> Vec<u32> {
    different_blocks(rng, s, r, |_| true)
}

/// Blocks in as few buckets as they fit into.
pub fn crowded_blocks(rng: &mut Rng, s: Settings, r: u32) -> Vec<u32> {
    let mut blocks = crowding::blocks(s.n, s.m);
    blocks.truncate(r as usize);
    rng.shuffle(&mut blocks);
    blocks
}

fn different_blocks(rng: &mut Rng, s: Settings, r: u32, wanted: impl Fn(u32) -> bool) -> Vec<u32> {
    let mut blocks = Vec::new();
    let mut taken = vec![false; s.m as usize];
    while (blocks.len() as u32) < r {
        let mut block = rng.within(0, s.m - 1);
        while taken[block as usize] || !wanted(block) {
            block = (block + 1) % s.m;
        }
        taken[block as usize] = true;
        blocks.push(block);
    }
    blocks
}

/// Pins none, all, all but one, all old ones, or leaves the pins that were drawn.
fn pin(rng: &mut Rng, s: Settings, residents: &mut [Resident]) {
    let (manner, spared) = (rng.below(6), rng.below(residents.len().max(1) as u64) as usize);
    let first_old = (s.n - s.nold) as usize;
    for (position, resident) in residents.iter_mut().enumerate() {
        let pinned = match manner {
            0 => false,
            1 => true,
            2 => position != spared,
            3 => position >= first_old || resident.marks >= PINNED,
            _ => resident.marks >= PINNED,
        };
        resident.marks = resident.marks % PINNED + if pinned { PINNED } else { 0 };
    }
}

/// Spends some or all of what the sum may rise by.
fn raise_counts(rng: &mut Rng, s: Settings, residents: &mut [Resident]) {
    let mut budget = sum_limit(s) - residents.len() as u64;
    let mut order: Vec<usize> = (0..residents.len()).collect();
    rng.shuffle(&mut order);
    let manner = rng.below(4);
    for &position in &order {
        let most = budget.min(u64::from(MAX_COUNT - 1));
        let raise = match manner {
            // around the chain limit
            0 => rng.below(u64::from(s.cmax) + 3),
            1 => rng.below(3),
            // as much as there is: the highest counts and sums at the limit
            2 => most,
            _ => rng.below(most + 1),
        };
        residents[position].count += raise.min(most) as u32;
        budget -= raise.min(most);
    }
    // up to the limit exactly, for the manners that leave something
    if rng.one_in(3) {
        for &position in &order {
            let raise = budget.min(u64::from(MAX_COUNT - residents[position].count));
            residents[position].count += raise as u32;
            budget -= raise;
        }
    }
}

/// Totals that this many modified residents allow: small, huge, and at their limits.
fn totals(rng: &mut Rng, modified: u64) -> Totals {
    let end = if rng.one_in(2) { 1 << 10 } else { 1 << 56 };
    let reads = rng.below(end);
    let writes = modified + rng.below(end - modified.min(end - 1));
    let most_outs = writes - modified;
    let ins = if rng.one_in(2) { reads } else { rng.below(reads + 1) };
    let outs = if rng.one_in(2) { most_outs } else { rng.below(most_outs + 1) };
    Totals { reads, writes, ins, outs }
}

/// How many of 16 words pin and unpin: none, some, or so many that pinned residents go, or fill the cache.
const PINS: [(u64, u64); 9] = [(0, 0), (0, 0), (1, 1), (1, 1), (0, 3), (1, 4), (1, 4), (4, 1), (8, 0)];

/// How often words pin and unpin.
#[derive(Clone, Copy)]
pub struct Pinning(u64, u64);

impl Pinning {
    pub const NONE: Pinning = Pinning(0, 0);

    pub fn drawn(rng: &mut Rng) -> Pinning {
        let (pins, unpins) = rng.pick(&PINS);
        Pinning(pins, unpins)
    }
    /// A word that pins or unpins the block, or none.
    pub fn word(self, rng: &mut Rng, block: u32) -> Option<u32> {
        match rng.below(16) {
            drawn if drawn < self.0 => Some(word(work::PIN, block)),
            drawn if drawn < self.0 + self.1 => Some(word(work::UNPIN, block)),
            _ => None,
        }
    }
}

/// Well-formed work words on few blocks, so that most are hits, or on many, so that most replace.
pub fn work_words(rng: &mut Rng, s: Settings, length: usize) -> Vec<u32> {
    let few = if rng.one_in(2) { s.n } else { 3 * s.n };
    let (blocks, pinning) = (rng.within(1, few).min(s.m), Pinning::drawn(rng));
    let mut one = || {
        let block = rng.within(0, blocks - 1);
        pinning.word(rng, block).unwrap_or_else(|| match rng.below(22) {
            0 => word(work::FLUSH, 0),
            1..=2 => word(work::TICK, 0),
            3..=4 => word(work::PURGE, block),
            5..=10 => word(work::WRITE, block),
            _ => word(work::READ, block),
        })
    };
    (0..length).map(|_| one()).collect()
}

/// Entry numbers, unused list and synonym order at random.
pub fn arrangement(rng: &mut Rng, n: u32, r: u32) -> Arrangement {
    let mut entries: Vec<u32> = (1..=n).collect();
    rng.shuffle(&mut entries);
    let unused = entries.split_off(r as usize);
    let mut synonyms: Vec<usize> = (0..r as usize).collect();
    rng.shuffle(&mut synonyms);
    Arrangement { entries, unused, synonyms }
}
