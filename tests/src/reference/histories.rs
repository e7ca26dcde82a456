//! Random histories: where they start, and their calls, with refused ones mixed in.
use super::beside::{Beside, Call, Tested};
use super::builder::{Plan, Totals};
use super::directory::{kind, word, MAX_VALUE, VALUE_BITS};
use super::judge;
use super::rng::Rng;
use super::samples;
use super::settings::{directory_length, MAX_AMAX, MAX_B, MAX_CMAX, MAX_M, MAX_N};
use super::stack::{work, MOST_TOTAL};
use crate::Settings;

/// Legal settings whose store stays small; halving, replacing and corner sections are frequent.
pub fn settings(rng: &mut Rng, n: u32) -> Settings {
    let drawn = samples::settings(rng, n);
    let amax = if rng.one_in(3) { rng.within(1, 3) } else { drawn.amax };
    let cmax = if rng.one_in(3) { rng.pick(&[1, 2, 3, MAX_CMAX]) } else { drawn.cmax };
    let b = match rng.below(8) {
        0..=2 => 1,
        3..=6 => rng.within(2, 16),
        _ => rng.within(17, 300),
    };
    let m = match rng.below(6) {
        0 => rng.within(1, 3),
        1 => rng.within(1, n),
        2..=4 => rng.within(n, 4 * n + 3),
        _ => rng.within(n, 3_000.max(n)),
    };
    Settings { amax, cmax, b, m, ..drawn }
}

pub fn bytes(rng: &mut Rng, length: usize) -> Vec<u8> {
    (0..length).map(|_| rng.word() as u8).collect()
}
pub fn words(rng: &mut Rng, length: usize) -> Vec<u32> {
    (0..length).map(|_| rng.word()).collect()
}
/// Nothing, or some more.
pub fn more(rng: &mut Rng, most: u32) -> usize {
    if rng.one_in(2) {
        0
    } else {
        rng.within(1, most) as usize
    }
}

/// How much lies behind a store: a byte, a block, as much again in small ones, or some bytes.
pub fn behind(rng: &mut Rng, s: Settings) -> usize {
    match rng.below(4) {
        0 => 1,
        1 => s.b as usize,
        2 => (s.m * s.b).min(2_000) as usize,
        _ => rng.within(1, 40) as usize,
    }
}

/// There is always something behind the store, so that a call can be lent too much of it.
fn data_and_store(rng: &mut Rng, s: Settings) -> (Vec<u8>, Vec<u8>) {
    let (data, store) = ((s.n * s.b) as usize + more(rng, 40), (s.m * s.b) as usize + behind(rng, s));
    (bytes(rng, data), bytes(rng, store))
}

pub fn fresh(rng: &mut Rng, tested: Tested, s: Settings) -> Beside {
    let (data, store) = data_and_store(rng, s);
    let length = directory_length(s) as usize + more(rng, 20);
    let earlier = words(rng, length);
    Beside::fresh(tested, s, earlier, data, store)
}

/// A directory that no list need lead to: entries, synonyms and unused list shuffled, counts and totals at will.
pub fn built(rng: &mut Rng, tested: Tested, s: Settings) -> Beside {
    let mut plan = samples::plan(rng, s);
    plan.totals = totals(rng, plan.modified());
    built_of(rng, tested, &plan)
}
pub fn built_of(rng: &mut Rng, tested: Tested, plan: &Plan) -> Beside {
    let (data, store) = data_and_store(rng, plan.settings);
    let length = more(rng, 20);
    let past = words(rng, length);
    Beside::built(tested, plan, &past, data, store)
}

/// Totals that this many modified residents allow: small, about to carry into the high word, just below the limit of
/// 11, and above it.
pub fn totals(rng: &mut Rng, modified: u64) -> Totals {
    let carries = |rng: &mut Rng| ((rng.below(1 << 20) + 1) << VALUE_BITS) - 1 - rng.below(30);
    let (reads, writes) = match rng.below(8) {
        0..=1 => (rng.below(1_000), modified + rng.below(1_000)),
        2..=3 => (carries(rng), carries(rng)),
        4..=6 => {
            let references = MOST_TOTAL - rng.below(150);
            let few = modified + rng.below(100);
            match rng.below(3) {
                0 => (references - few, few),
                1 => (few - modified, references + modified - few),
                _ => (references / 2, references - references / 2),
            }
        }
        _ => ((1 << 56) - 1 - rng.below(5), modified + rng.below(1 << 55)),
    };
    let below = |rng: &mut Rng, most: u64| most - rng.pick(&[0, 1, most / 2, most]).min(most);
    Totals { reads, writes, ins: below(rng, reads), outs: below(rng, writes - modified) }
}

/// Well-formed work words over few blocks, all blocks, or a hot set beside all.
pub fn work_words(rng: &mut Rng, s: Settings, length: usize) -> Vec<u32> {
    // the samples flush and tick often
    let manner = if s.n > 64 { rng.within(1, 2) } else { rng.within(0, 2) };
    if manner == 0 {
        return samples::work_words(rng, s, length);
    }
    let (hot, pinning) = (rng.within(1, s.n.min(s.m)), samples::Pinning::drawn(rng));
    let one = |rng: &mut Rng| {
        let block = if manner == 1 || rng.one_in(3) { rng.within(0, s.m - 1) } else { s.m - rng.within(1, hot) };
        if let Some(w) = pinning.word(rng, block) {
            return w;
        }
        match rng.below(16) {
            // rare in large caches, so that modified victims are met
            _ if rng.one_in(u64::from(s.n.max(16))) => word(rng.pick(&[work::FLUSH, work::TICK, work::TICK]), 0),
            0 => word(work::PURGE, block),
            1..=5 => word(work::WRITE, block),
            _ => word(work::READ, block),
        }
    };
    (0..length).map(|_| one(rng)).collect()
}

/// A call that fits these words, with exact or longer data and buffers.
pub fn call_of(rng: &mut Rng, beside: &Beside, work: Vec<u32>) -> Call {
    let b = beside.stack.settings.b as usize;
    let of_kind = |k: u32| work.iter().filter(|&&w| kind(w) == k).count() * b;
    let mut lent = beside.stack.whole();
    if rng.one_in(2) {
        lent.data = beside.data.len();
    }
    let (answers, incoming) = (work.len() + more(rng, 9), of_kind(work::WRITE) + more(rng, 40));
    let outgoing = of_kind(work::READ) + more(rng, 40);
    let (answers, incoming, outgoing) = (words(rng, answers), bytes(rng, incoming), bytes(rng, outgoing));
    Call { lent, work, incoming, answers, outgoing }
}

/// Kinds of words that name a block.
pub const OF_A_BLOCK: [u32; 5] = [work::READ, work::WRITE, work::PURGE, work::PIN, work::UNPIN];

/// Spoils one respect of a call, so that 7, 12, 8, 9 or 10 is due, alone or together.
pub fn spoil(rng: &mut Rng, beside: &Beside, call: &mut Call) {
    let (s, whole) = (beside.stack.settings, beside.stack.whole());
    let shorter = |rng: &mut Rng, length: usize| length - (1 + rng.below(3) as usize).min(length);
    match rng.below(8) {
        0 => call.lent.data = shorter(rng, whole.data),
        1 => call.lent.store = shorter(rng, whole.store),
        2 => call.lent.store = rng.pick(&[whole.store + 1, beside.store.len()]),
        3 => {
            let purge = word(work::PURGE, 0);
            call.work.resize(work::MOST_WORDS + 1 + more(rng, 3), purge);
            let wrong = rng.one_in(2);
            call.answers.resize(if wrong { 0 } else { 1_100 }, 7);
        }
        4 => {
            let high = rng.pick(&[s.m, s.m + 1, MAX_VALUE]);
            let wrong = match rng.below(4) {
                0 => word(rng.pick(&[0, 8, 9, 10, 15]), 0),
                1 => word(rng.pick(&[work::FLUSH, work::TICK]), rng.pick(&[1, s.m - 1, MAX_VALUE]).max(1)),
                _ => word(rng.pick(&OF_A_BLOCK), high),
            };
            let at = rng.below(call.work.len() as u64 + 1) as usize;
            call.work.insert(at, wrong);
            if rng.one_in(2) {
                call.answers.push(7);
            }
        }
        5 => call.answers.truncate(shorter(rng, call.work.len())),
        6 => {
            let length = call.work.iter().filter(|&&w| kind(w) == work::WRITE).count() * s.b as usize;
            call.incoming.truncate(shorter(rng, length));
        }
        _ => {
            let length = call.work.iter().filter(|&&w| kind(w) == work::READ).count() * s.b as usize;
            call.outgoing.truncate(shorter(rng, length));
        }
    }
}

/// Settings that are illegal in one respect, with their number, 1 to 4.
pub fn illegal(rng: &mut Rng, s: Settings) -> (Settings, u32) {
    match rng.below(8) {
        0 => (Settings { n: rng.pick(&[0, MAX_N + 1, u32::MAX]), ..s }, 1),
        1 => (Settings { nold: 0, ..s }, 2),
        // a sum that 32 bits don't hold is too large as well
        2 => (Settings { nnew: rng.pick(&[s.n - s.nold + 1, u32::MAX]), ..s }, 2),
        3 => (Settings { cmax: rng.pick(&[0, MAX_CMAX + 1]), ..s }, 3),
        4 => (Settings { amax: rng.pick(&[0, MAX_AMAX + 1]), ..s }, 3),
        5 => (Settings { b: rng.pick(&[0, MAX_B + 1]), ..s }, 4),
        _ => (Settings { m: rng.pick(&[0, MAX_M + 1]), ..s }, 4),
    }
}

/// A fresh over the directory of a history, declined by 1 to 5.
fn decline_fresh(rng: &mut Rng, beside: &mut Beside) {
    let s = beside.stack.settings;
    if rng.one_in(4) {
        return beside.declined_fresh(s, rng.below(directory_length(s)) as usize, 5);
    }
    let (illegal, number) = illegal(rng, s);
    let length = rng.below(beside.dir.len() as u64 + 1) as usize;
    beside.declined_fresh(illegal, length, number);
}

/// Directory words with one word wrong, or cut short; not sound.
pub fn unsound(rng: &mut Rng, dir: &[u32], s: Settings) -> Vec<u32> {
    let length = directory_length(s);
    if rng.one_in(4) {
        return dir[..rng.below(length) as usize].to_vec();
    }
    loop {
        let mut damaged = dir.to_vec();
        let at = rng.below(length) as usize;
        damaged[at] ^= 1 << rng.below(32);
        if !judge::sound(&damaged) {
            return damaged;
        }
    }
}

/// Goes on with `calls` batches of at most `most` words, then looks at every block.
pub fn go_on(rng: &mut Rng, beside: &mut Beside, calls: usize, most: u32) {
    for _ in 0..calls {
        let s = beside.stack.settings;
        let length = match rng.below(6) {
            0 => rng.below(3) as u32,
            1 => most,
            _ => rng.within(0, most),
        };
        let work = work_words(rng, s, length as usize);
        let mut call = call_of(rng, beside, work);
        if rng.one_in(4) {
            for _ in 0..rng.within(1, 3) {
                spoil(rng, beside, &mut call);
            }
        }
        // the quadratic judge is asked for small directories only
        if s.n <= 64 && rng.one_in(10) {
            let unsound = unsound(rng, &beside.dir, s);
            beside.call_over(unsound, &call);
        }
        if rng.one_in(6) {
            decline_fresh(rng, beside);
        }
        beside.call(&call);
    }
    beside.look_at_every_block();
}
